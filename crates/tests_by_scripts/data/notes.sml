class: K
  parameters: int N = 1
  state: S
    action: GO
      set N = 2
      do GO all_in E
      do NOTE (V = N) X
      set N = 3
      terminate_action /state=T
    action: NOTE (int V)
  state: T
    action: GO
      do NOTE (V = N) X
object: X is_of_class K
objectset: E { }
