(define (problem DLOG-1-1-1)
	(:domain driverlog)
	(:objects
	driver1 - driver
	truck1 - truck
	package1 - obj
	s0
	s1
	s2
	p0-1
	p1-2
	p2-0 - location
	)
	(:init
	(at driver1 s1)
	(at truck1 s1)
	(at package1 s0)
	(empty truck1)
	(link s0 s1)
	(= (time-to-drive s0 s1) 15)
	(link s1 s0)
	(= (time-to-drive s1 s0) 15)
	(link s1 s2)
	(= (time-to-drive s1 s2) 44)
	(link s2 s1)
	(= (time-to-drive s2 s1) 44)
	(link s2 s0)
	(= (time-to-drive s2 s0) 24)
	(link s0 s2)
	(= (time-to-drive s0 s2) 24)
	(path s0 p0-1)
	(= (time-to-walk s0 p0-1) 87)
	(path p0-1 s0)
	(= (time-to-walk p0-1 s0) 87)
	(path p0-1 s1)
	(= (time-to-walk p0-1 s1) 87)
	(path s1 p0-1)
	(= (time-to-walk s1 p0-1) 87)
	(path s1 p1-2)
	(= (time-to-walk s1 p1-2) 11)
	(path p1-2 s1)
	(= (time-to-walk p1-2 s1) 11)
	(path p1-2 s2)
	(= (time-to-walk p1-2 s2) 29)
	(path s2 p1-2)
	(= (time-to-walk s2 p1-2) 29)
	(path s2 p2-0)
	(= (time-to-walk s2 p2-0) 59)
	(path p2-0 s2)
	(= (time-to-walk p2-0 s2) 59)
	(path p2-0 s0)
	(= (time-to-walk p2-0 s0) 16)
	(path s0 p2-0)
	(= (time-to-walk s0 p2-0) 16)
	(= (driven) 0)
	(= (walked) 0)
)
	(:goal (and
	(at package1 s2)
	))

(:metric minimize (+ (* 4 (total-time)) (+ (* 3 (driven)) (* 1 (walked)))))

)
