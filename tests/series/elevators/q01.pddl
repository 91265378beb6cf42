(define (problem elevators-time-p3_1_1)
(:domain elevators-time)

(:objects 
n0 n1 n2 - floor
p0 - passenger
slow0-0 - slow-elevator
)

(:init
(above n0 n1)
(above n0 n2)
(above n1 n2)
(lift-at slow0-0 n1)
(= (passengers slow0-0) 0)
(= (can-hold slow0-0) 4)
(reachable-floor slow0-0 n0)
(reachable-floor slow0-0 n1)
(reachable-floor slow0-0 n2)
(passenger-at p0 n2)
(= (travel-slow n0 n1) 11)
(= (travel-fast n0 n1) 10)
(= (travel-slow n0 n2) 16)
(= (travel-fast n0 n2) 12)
(= (travel-slow n1 n2) 11)
(= (travel-fast n1 n2) 10)
(= (total-cost) 0)

)

(:goal
(and
(passenger-at p0 n1)
(<= (total-cost) 200)
))

(:metric minimize (total-time))

)
