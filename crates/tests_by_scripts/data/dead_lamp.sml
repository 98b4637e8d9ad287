class: LAMP
  state: OFF /dead_state
    action: LIGHT
      move_to ON
  state: ON
class: BOSS
  state: S
    action: GO
      do LIGHT L
object: L is_of_class LAMP
object: B is_of_class BOSS
