(define (problem strips-sat-x-3)
(:domain satellite)
(:objects
	satellite0 - satellite
	satellite1 - satellite
	instrument0 - instrument
	instrument1 - instrument
	image0 - mode
	thermograph1 - mode
	GroundStation0 - direction
	Star1 - direction
	Star2 - direction
	Planet3 - direction
	Star4 - direction
	Planet5 - direction
)
(:init
	(supports instrument0 image0)
	(calibration_target instrument0 GroundStation0)
	(= (calibration_time instrument0 GroundStation0) 9)
	(supports instrument1 image0)
	(supports instrument1 thermograph1)
	(calibration_target instrument1 GroundStation0)
	(= (calibration_time instrument1 GroundStation0) 4)
	(on_board instrument0 satellite0)
	(power_avail satellite0)
	(pointing satellite0 Planet5)
	(= (data_capacity satellite0) 300)
	(= (fuel satellite0) 500)
	(on_board instrument1 satellite1)
	(power_avail satellite1)
	(pointing satellite1 Star2)
	(= (data_capacity satellite1) 300)
	(= (fuel satellite1) 500)
	(= (data Planet5 image0) 26)
	(= (data Star2 image0) 13)
	(= (data Star2 thermograph1) 29)
	(= (data Star1 thermograph1) 5)
	(= (data Planet5 thermograph1) 23)
	(= (slew_time GroundStation0 Star1) 65)
	(= (slew_time GroundStation0 Star2) 12)
	(= (slew_time GroundStation0 Planet3) 49)
	(= (slew_time GroundStation0 Star4) 80)
	(= (slew_time GroundStation0 Planet5) 16)
	(= (slew_time Star1 GroundStation0) 65)
	(= (slew_time Star1 Star2) 48)
	(= (slew_time Star1 Planet3) 71)
	(= (slew_time Star1 Star4) 59)
	(= (slew_time Star1 Planet5) 49)
	(= (slew_time Star2 GroundStation0) 12)
	(= (slew_time Star2 Star1) 48)
	(= (slew_time Star2 Planet3) 72)
	(= (slew_time Star2 Star4) 76)
	(= (slew_time Star2 Planet5) 52)
	(= (slew_time Planet3 GroundStation0) 49)
	(= (slew_time Planet3 Star1) 71)
	(= (slew_time Planet3 Star2) 72)
	(= (slew_time Planet3 Star4) 72)
	(= (slew_time Planet3 Planet5) 30)
	(= (slew_time Star4 GroundStation0) 80)
	(= (slew_time Star4 Star1) 59)
	(= (slew_time Star4 Star2) 76)
	(= (slew_time Star4 Planet3) 72)
	(= (slew_time Star4 Planet5) 72)
	(= (slew_time Planet5 GroundStation0) 16)
	(= (slew_time Planet5 Star1) 49)
	(= (slew_time Planet5 Star2) 52)
	(= (slew_time Planet5 Planet3) 30)
	(= (slew_time Planet5 Star4) 72)
	(= (data-stored) 0)
	(= (fuel-used) 0)
)
(:goal (and
	(pointing satellite0 Star4)
	(have_image Planet5 image0)
	(have_image Star2 image0)
	(have_image Star2 thermograph1)
	(have_image Star1 thermograph1)
	(have_image Planet5 thermograph1)
))
(:metric minimize (total-time))

)
