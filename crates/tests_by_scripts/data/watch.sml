class: LAMP
  state: OFF
    action: LIGHT
      move_to ON
  state: ON
    action: DIM
      move_to OFF
class: WATCH
  parameters: int N = 0
  state: S
    action: BEGIN (int LAST)
      do LOOK (LAST = LAST) X
    action: LOOK (int LAST)
      do LIGHT L
      if ( L not_in_state { ON, DEAD } or not L in_state ON ) then
        set N = 0
      else
        set N = LAST
      endif
      do DIM L
      if ( L in_state OFF and not ( L in_state ON or L in_state DEAD ) ) then
        terminate_action /state=T
      endif
      move_to S
  state: T
object: L is_of_class LAMP
object: X is_of_class WATCH
