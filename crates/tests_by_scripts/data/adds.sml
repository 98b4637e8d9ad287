class: SUPPLY /associated
  state: OFF /initial_state
    action: SWITCH_ON
  state: ON
    action: SWITCH_OFF
class: RUN_TYPE
  state: NOT_READY /initial_state
    action: CONFIGURE
      do SWITCH_ON all_in HV
      if ( all_in HV in_state ON ) then
        move_to READY
      endif
      move_to ERROR
  state: READY
  state: ERROR
class: OPS
  state: S
    action: ADD
      insert HV3 in HV
      insert HV1 in HV
object: HV1 is_of_class SUPPLY
object: HV2 is_of_class SUPPLY
object: HV3 is_of_class SUPPLY
object: RUN is_of_class RUN_TYPE
object: OP is_of_class OPS
objectset: HV { HV1, HV2 }
