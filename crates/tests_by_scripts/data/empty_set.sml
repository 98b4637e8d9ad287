class: T
  state: S
    action: GO
      if ( any_in E in_state S or not all_in E in_state S ) then
        move_to BAD
      endif
      move_to GOOD
  state: GOOD
  state: BAD
object: X is_of_class T
objectset: E { }
