(define (problem DLOG-2-2-3)
	(:domain driverlog)
	(:objects
	driver1
	driver2 - driver
	truck1
	truck2 - truck
	package1
	package2
	package3 - obj
	s0
	s1
	s2
	s3
	p0-1
	p1-2
	p2-3
	p3-0 - location
	)
	(:init
	(at driver1 s0)
	(at driver2 s2)
	(at truck1 s0)
	(at truck2 s3)
	(at package1 s3)
	(at package2 s3)
	(at package3 s2)
	(empty truck1)
	(empty truck2)
	(link s0 s1)
	(= (time-to-drive s0 s1) 53)
	(link s1 s0)
	(= (time-to-drive s1 s0) 53)
	(link s1 s2)
	(= (time-to-drive s1 s2) 59)
	(link s2 s1)
	(= (time-to-drive s2 s1) 59)
	(link s2 s3)
	(= (time-to-drive s2 s3) 38)
	(link s3 s2)
	(= (time-to-drive s3 s2) 38)
	(link s3 s0)
	(= (time-to-drive s3 s0) 9)
	(link s0 s3)
	(= (time-to-drive s0 s3) 9)
	(link s1 s3)
	(= (time-to-drive s1 s3) 9)
	(link s3 s1)
	(= (time-to-drive s3 s1) 9)
	(path s0 p0-1)
	(= (time-to-walk s0 p0-1) 62)
	(path p0-1 s0)
	(= (time-to-walk p0-1 s0) 62)
	(path p0-1 s1)
	(= (time-to-walk p0-1 s1) 71)
	(path s1 p0-1)
	(= (time-to-walk s1 p0-1) 71)
	(path s1 p1-2)
	(= (time-to-walk s1 p1-2) 30)
	(path p1-2 s1)
	(= (time-to-walk p1-2 s1) 30)
	(path p1-2 s2)
	(= (time-to-walk p1-2 s2) 84)
	(path s2 p1-2)
	(= (time-to-walk s2 p1-2) 84)
	(path s2 p2-3)
	(= (time-to-walk s2 p2-3) 74)
	(path p2-3 s2)
	(= (time-to-walk p2-3 s2) 74)
	(path p2-3 s3)
	(= (time-to-walk p2-3 s3) 39)
	(path s3 p2-3)
	(= (time-to-walk s3 p2-3) 39)
	(path s3 p3-0)
	(= (time-to-walk s3 p3-0) 49)
	(path p3-0 s3)
	(= (time-to-walk p3-0 s3) 49)
	(path p3-0 s0)
	(= (time-to-walk p3-0 s0) 37)
	(path s0 p3-0)
	(= (time-to-walk s0 p3-0) 37)
	(= (driven) 0)
	(= (walked) 0)
)
	(:goal (and
	(at package1 s0)
	(at package2 s0)
	(at package3 s3)
	))

(:metric minimize (+ (* 4 (total-time)) (+ (* 3 (driven)) (* 1 (walked)))))

)
