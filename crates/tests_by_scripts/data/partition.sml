! A run, and the parts of a detector that take part in it. Who takes part is a set: a part that makes trouble is taken
! out of it and the run goes on without, and once it is well it is put back. A part is equipment (/associated).

class: PART /associated
  state: IDLE /initial_state
    action: CONFIGURE
    action: RESET
  state: READY
    action: START (int NUMBER)
    action: RESET
  state: TAKING_DATA
    action: STOP
    action: RESET

class: RUN_TYPE
  parameters: int LAST = 0
  state: IDLE /initial_state
    action: START_RUN (int NUMBER)
      do CONFIGURE all_in PARTS
      if ( any_in PARTS not_in_state READY ) then
        move_to ERROR
      endif
      set LAST = NUMBER
      do START (NUMBER = LAST) all_in PARTS
      if ( all_in PARTS in_state TAKING_DATA ) then
        move_to RUNNING
      endif
      move_to ERROR
  state: RUNNING
    action: STOP_RUN
      do STOP all_in PARTS
      ! Whoever was taken out is reset behind each run.
      do RESET all_in TAKEN_OUT
      wait ( all_in PARTS, all_in TAKEN_OUT )
      move_to IDLE
  state: ERROR
    action: RESET
      do RESET all_in PARTS
      do RESET all_in TAKEN_OUT
      wait ( all_in PARTS, all_in TAKEN_OUT )
      move_to IDLE

! The gate of the tracker. Its state says whether the tracker takes part. It is put back between two runs alone.
class: GATE_TYPE
  state: OPEN /initial_state
    action: TAKE_OUT
      remove TRACKER from PARTS
      insert TRACKER in TAKEN_OUT
      move_to CLOSED
  state: CLOSED
    action: PUT_BACK
      if ( RUN in_state IDLE and TRACKER in_state IDLE ) then
        remove TRACKER from TAKEN_OUT
        insert TRACKER in PARTS
        move_to OPEN
      endif

! A shift: a run without the tracker, and then one with it.
class: SHIFT_TYPE
  state: ON /initial_state
    action: TWO_RUNS
      do TAKE_OUT GATE
      wait ( GATE )
      do START_RUN (NUMBER = 1) RUN
      wait ( RUN )
      do STOP_RUN RUN
      wait ( RUN )
      do PUT_BACK GATE
      if ( GATE in_state OPEN ) then
        do START_RUN (NUMBER = 2) RUN
      endif

object: TRACKER is_of_class PART
object: CALORIMETER is_of_class PART
object: MUONS is_of_class PART
object: RUN is_of_class RUN_TYPE
object: GATE is_of_class GATE_TYPE
object: SHIFT is_of_class SHIFT_TYPE

objectset: PARTS { TRACKER, CALORIMETER, MUONS }
objectset: TAKEN_OUT { }
