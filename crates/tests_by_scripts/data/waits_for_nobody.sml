class: LAMP
  state: OFF
    action: LIGHT
      move_to ON
  state: ON
class: BOSS
  state: IDLE
    action: GO
      wait ( all_in E )
      move_to DONE
  state: DONE
object: L is_of_class LAMP
object: B is_of_class BOSS
objectset: E { }
