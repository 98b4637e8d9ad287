class: K
  state: S
    action: GO
      move_to DEAD
object: X is_of_class K
