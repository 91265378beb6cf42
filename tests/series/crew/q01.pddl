(define (problem CrewPlanning_1crew_1day_1)
(:domain CrewPlanning)
(:objects
 c1 - crewmember
 d1 - Day
  f0 - filter
  r0 - RPCM
 p1 spare - payload
)
(:init
 (day-done day0)
 (next day0 d1)
 (available c1) (done_sleep c1 day0) (= (crew-minutes c1) 0)
 (= (length p1) 30)
 (unused treadmill) (unused bicycle) (unused mcs)
)
(:goal (and
 (day-done d1)
 (act-completed p1 d1)
 (forall (?c - crewmember) (available ?c))
))
)
