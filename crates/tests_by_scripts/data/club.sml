class: MEMBER
  parameters: int N = 0
  state: S
    action: NOTE (int V)
      set N = V
    action: SHOW (string TEXT = "m")
class: GUEST
  state: S
    action: NOTE (string W = "g", int V = 7)
    action: SHOW (string TEXT = "g")
class: DESK
  parameters: int N = 1
  state: S
    action: OPEN
      insert BERT in CLUB
      insert ANNA in CLUB
      insert BERT in CLUB
    action: INVITE
      insert G in CLUB
    action: CLOSE
      remove ANNA from CLUB
      remove G from CLUB
      remove ANNA from CLUB
    action: TELL
      set N = 2
      do NOTE (V = N) all_in CLUB
      do SHOW all_in CLUB
    action: WATCH
      wait ( all_in CLUB )
      move_to SEEN
  state: SEEN
class: SELF
  state: S
    action: JOIN
      insert X in OWN
      do JOIN all_in OWN
      remove X from OWN
      move_to T
  state: T
object: ANNA is_of_class MEMBER
object: BERT is_of_class MEMBER
object: G is_of_class GUEST
object: FRONT is_of_class DESK
object: BACK is_of_class DESK
object: X is_of_class SELF
objectset: CLUB { ANNA }
objectset: OWN { }
