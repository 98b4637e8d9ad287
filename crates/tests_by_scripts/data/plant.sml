class: SUPPLY /associated
  state: OFF /initial_state
    action: SWITCH_ON
  state: ON
    action: SWITCH_OFF
class: RUN_TYPE
  state: NOT_READY /initial_state
    action: CONFIGURE
      do SWITCH_ON all_in HV
      if ( all_in HV in_state ON ) then
        move_to READY
      endif
      move_to ERROR
  state: READY
  state: ERROR
class: SINK /associated
  state: READY
    action: TAKE (int V, string W = "none")
class: COUNTER
  parameters: int N = 3, string P = "x"
  state: IDLE
    action: PUT (int T = 5, string M)
      set N = T
      set P = M
      do TAKE (W = P, V = N) OUT
    action: SHOW
      do TAKE (V = N) OUT
class: LEFT
  state: S
    action: GO
      if ( B in_state S ) then
      endif
class: RIGHT
  state: S
    action: GO
      if ( A in_state S ) then
      endif
class: WATCH
  state: IDLE
    action: LOOK
      do SWITCH_OFF HV2
      do SWITCH_OFF HV2
      do SWITCH_OFF HV2
      if ( HV1 in_state ON ) then
      endif
object: HV1 is_of_class SUPPLY
object: HV2 is_of_class SUPPLY
object: RUN is_of_class RUN_TYPE
object: OUT is_of_class SINK
object: C is_of_class COUNTER
object: A is_of_class LEFT
object: B is_of_class RIGHT
object: W is_of_class WATCH
objectset: HV { HV1, HV2 }
