class: SINK
  state: READY
    action: TAKE (int V, string W = "none")
class: COUNTER
  parameters: int N = 3, string P = "x"
  state: IDLE
    action: PUT (int T = 5, string M)
      set N = T
      set P = M
      do TAKE (W = P, V = N) OUT
    action: SHOW
      do TAKE (V = N) OUT
object: OUT is_of_class SINK
object: C is_of_class COUNTER
