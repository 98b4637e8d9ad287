class: LAMP
  state: OFF
    action: LIGHT
      move_to ON
  state: ON
class: BOSS
  state: IDLE
    action: GO
      insert L in G
      do LIGHT all_in G
      remove L from G
      do LIGHT all_in G
      if ( all_in G in_state ON ) then
        move_to DONE
      endif
  state: DONE
object: L is_of_class LAMP
object: B is_of_class BOSS
objectset: G { }
