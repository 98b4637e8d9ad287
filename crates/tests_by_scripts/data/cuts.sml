class: LAMP
  state: OFF
    action: LIGHT
      move_to ON
  state: ON
class: WATCH
  state: S
    action: GO
      if ( any_in G in_state ON ) then
        move_to T
      endif
  state: T
class: KEEP
  state: S
    action: CUT
      remove L from G
object: L is_of_class LAMP
object: W is_of_class WATCH
object: K is_of_class KEEP
objectset: G { L }
