class: LAMP
  state: OFF
    action: LIGHT
      move_to ON
  state: ON
class: BOSS
  state: IDLE
    action: GO
      do LIGHT L
      if ( L in_state ON ) then
        move_to DONE
      endif
  state: DONE
object: L is_of_class LAMP
object: B is_of_class BOSS
