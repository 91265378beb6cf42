(define (problem elevators-time-p4_2_1)
(:domain elevators-time)

(:objects 
n0 n1 n2 n3 - floor
p0 p1 - passenger
slow0-0 - slow-elevator
fast0 - fast-elevator)

(:init
(above n0 n1)
(above n0 n2)
(above n0 n3)
(above n1 n2)
(above n1 n3)
(above n2 n3)
(lift-at slow0-0 n0)
(= (passengers slow0-0) 0)
(= (can-hold slow0-0) 4)
(reachable-floor slow0-0 n0)
(reachable-floor slow0-0 n1)
(reachable-floor slow0-0 n2)
(reachable-floor slow0-0 n3)
(lift-at fast0 n2)
(= (passengers fast0) 0)
(= (can-hold fast0) 4)
(reachable-floor fast0 n0)
(reachable-floor fast0 n1)
(reachable-floor fast0 n2)
(reachable-floor fast0 n3)
(passenger-at p0 n2)
(passenger-at p1 n1)
(= (travel-slow n0 n1) 11)
(= (travel-fast n0 n1) 10)
(= (travel-slow n0 n2) 16)
(= (travel-fast n0 n2) 12)
(= (travel-slow n0 n3) 21)
(= (travel-fast n0 n3) 14)
(= (travel-slow n1 n2) 11)
(= (travel-fast n1 n2) 10)
(= (travel-slow n1 n3) 16)
(= (travel-fast n1 n3) 12)
(= (travel-slow n2 n3) 11)
(= (travel-fast n2 n3) 10)
(= (total-cost) 0)

)

(:goal
(and
(passenger-at p0 n1)
(passenger-at p1 n0)
(<= (total-cost) 400)
))

(:metric minimize (total-time))

)
