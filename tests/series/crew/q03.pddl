(define (problem CrewPlanning_2crew_1day_2)
(:domain CrewPlanning)
(:objects
 c1 c2 - crewmember
 d1 - Day
  f0 - filter
 r1 r0 - RPCM
 p1 p2 spare - payload
)
(:init
 (day-done day0)
 (next day0 d1)
 (available c1) (done_sleep c1 day0) (= (crew-minutes c1) 0)
 (available c2) (done_sleep c2 day0) (= (crew-minutes c2) 0)
 (= (length p1) 30)
 (= (length p2) 45)
 (unused treadmill) (unused bicycle) (unused mcs)
)
(:goal (and
 (day-done d1)
 (repaired r1)
 (conferred c1 d1)
 (conferred c2 d1)
 (act-completed p1 d1)
 (act-completed p2 d1)
 (forall (?c - crewmember) (available ?c))
))
)
