class: K
  state: S
    action: GO
      move_to GONE
  state: T /initial_state
    action: GO
      move_to S
  state: GONE /dead_state
    action: GO
      move_to T
object: X is_of_class K
