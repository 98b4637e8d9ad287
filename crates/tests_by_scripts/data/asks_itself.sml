class: K
  state: S
    action: GO
      if ( all_in G in_state S ) then
      endif
object: X is_of_class K
objectset: G { X }
