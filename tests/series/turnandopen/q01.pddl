(define (problem turnandopen-1-2-2)
(:domain turnandopen-strips)
(:objects robot1 - robot
rgripper1 lgripper1 - gripper
room1 room2 - room
door1 - door
ball1 ball2 - obj)
(:init
(closed door1)
(connected room1 room2 door1)
(connected room2 room1 door1)
(at-robby robot1 room1)
(free robot1 rgripper1)
(free robot1 lgripper1)
(at ball1 room1)
(at ball2 room1)
)
(:goal
(and
(at ball1 room2)
(at ball2 room2)
)
)
(:metric minimize (total-time))

)
