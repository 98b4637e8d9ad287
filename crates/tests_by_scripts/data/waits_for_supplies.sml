class: SUPPLY /associated
  state: OFF /initial_state
    action: SWITCH_ON
  state: ON
    action: SWITCH_OFF
class: RUN_TYPE
  state: NOT_READY /initial_state
    action: CONFIGURE
      do SWITCH_ON all_in HV
      wait ( HV2, all_in HV, HV1 )
      if ( all_in HV in_state ON ) then
        wait ( all_in HV )
        wait ( HV1 )
      endif
      wait ( HV2 )
      move_to READY
  state: READY
object: HV1 is_of_class SUPPLY
object: HV2 is_of_class SUPPLY
object: RUN is_of_class RUN_TYPE
objectset: HV { HV1, HV2 }
