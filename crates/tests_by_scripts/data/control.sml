class: SUPPLY /associated
  state: OFF
    action: SWITCH_ON (int VOLTS)
  state: ON
class: CONTROL
  parameters: int TRIES = 0
  state: NOT_READY
    action: CONFIGURE (int VOLTS = 1500)
      set TRIES = 1
      do SWITCH_ON (VOLTS = VOLTS) all_in SUPPLIES
      if ( all_in SUPPLIES in_state ON ) then
        move_to READY
      endif
      move_to ERROR
  state: READY
  state: ERROR
object: HV is_of_class SUPPLY
object: RUN is_of_class CONTROL
objectset: SUPPLIES { HV }
