(define (problem CrewPlanning_1crew_2day_2)
(:domain CrewPlanning)
(:objects
 c1 - crewmember
 d1 d2 - Day
 f1 f0 - filter
  r0 - RPCM
 p1 p2 spare - payload
)
(:init
 (day-done day0)
 (next day0 d1)
 (next d1 d2)
 (available c1) (done_sleep c1 day0) (= (crew-minutes c1) 0)
 (= (length p1) 30)
 (= (length p2) 45)
 (unused treadmill) (unused bicycle) (unused mcs)
)
(:goal (and
 (day-done d2)
 (changed f1 d1)
 (changed f1 d2)
 (act-completed p1 d1)
 (act-completed p2 d2)
 (forall (?c - crewmember) (available ?c))
))
)
