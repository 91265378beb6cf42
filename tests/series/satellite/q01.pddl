(define (problem strips-sat-x-1)
(:domain satellite)
(:objects
	satellite0 - satellite
	instrument0 - instrument
	infrared0 - mode
	GroundStation0 - direction
	Star1 - direction
	Star2 - direction
)
(:init
	(supports instrument0 infrared0)
	(calibration_target instrument0 GroundStation0)
	(= (calibration_time instrument0 GroundStation0) 7)
	(on_board instrument0 satellite0)
	(power_avail satellite0)
	(pointing satellite0 Star1)
	(= (data_capacity satellite0) 60)
	(= (fuel satellite0) 260)
	(= (data Star1 infrared0) 13)
	(= (slew_time GroundStation0 Star1) 31)
	(= (slew_time GroundStation0 Star2) 6)
	(= (slew_time Star1 GroundStation0) 31)
	(= (slew_time Star1 Star2) 79)
	(= (slew_time Star2 GroundStation0) 6)
	(= (slew_time Star2 Star1) 79)
	(= (data-stored) 0)
	(= (fuel-used) 0)
)
(:goal (and
	(pointing satellite0 GroundStation0)
	(have_image Star1 infrared0)
))
(:metric minimize (total-time))

)
