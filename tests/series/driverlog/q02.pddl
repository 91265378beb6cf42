(define (problem DLOG-2-1-2)
	(:domain driverlog)
	(:objects
	driver1
	driver2 - driver
	truck1 - truck
	package1
	package2 - obj
	s0
	s1
	s2
	p0-1
	p1-2
	p2-0 - location
	)
	(:init
	(at driver1 s1)
	(at driver2 s0)
	(at truck1 s1)
	(at package1 s2)
	(at package2 s1)
	(empty truck1)
	(link s0 s1)
	(= (time-to-drive s0 s1) 44)
	(link s1 s0)
	(= (time-to-drive s1 s0) 44)
	(link s1 s2)
	(= (time-to-drive s1 s2) 54)
	(link s2 s1)
	(= (time-to-drive s2 s1) 54)
	(link s2 s0)
	(= (time-to-drive s2 s0) 24)
	(link s0 s2)
	(= (time-to-drive s0 s2) 24)
	(path s0 p0-1)
	(= (time-to-walk s0 p0-1) 28)
	(path p0-1 s0)
	(= (time-to-walk p0-1 s0) 28)
	(path p0-1 s1)
	(= (time-to-walk p0-1 s1) 54)
	(path s1 p0-1)
	(= (time-to-walk s1 p0-1) 54)
	(path s1 p1-2)
	(= (time-to-walk s1 p1-2) 75)
	(path p1-2 s1)
	(= (time-to-walk p1-2 s1) 75)
	(path p1-2 s2)
	(= (time-to-walk p1-2 s2) 70)
	(path s2 p1-2)
	(= (time-to-walk s2 p1-2) 70)
	(path s2 p2-0)
	(= (time-to-walk s2 p2-0) 66)
	(path p2-0 s2)
	(= (time-to-walk p2-0 s2) 66)
	(path p2-0 s0)
	(= (time-to-walk p2-0 s0) 90)
	(path s0 p2-0)
	(= (time-to-walk s0 p2-0) 90)
	(= (driven) 0)
	(= (walked) 0)
)
	(:goal (and
	(at package1 s0)
	(at package2 s0)
	))

(:metric minimize (+ (* 4 (total-time)) (+ (* 3 (driven)) (* 1 (walked)))))

)
