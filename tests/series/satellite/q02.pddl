(define (problem strips-sat-x-2)
(:domain satellite)
(:objects
	satellite0 - satellite
	instrument0 - instrument
	instrument1 - instrument
	spectrograph0 - mode
	spectrograph1 - mode
	GroundStation0 - direction
	Phenomenon1 - direction
	Planet2 - direction
	Planet3 - direction
	Planet4 - direction
)
(:init
	(supports instrument0 spectrograph0)
	(calibration_target instrument0 GroundStation0)
	(= (calibration_time instrument0 GroundStation0) 20)
	(supports instrument1 spectrograph1)
	(calibration_target instrument1 GroundStation0)
	(= (calibration_time instrument1 GroundStation0) 5)
	(on_board instrument0 satellite0)
	(on_board instrument1 satellite0)
	(power_avail satellite0)
	(pointing satellite0 Phenomenon1)
	(= (data_capacity satellite0) 180)
	(= (fuel satellite0) 380)
	(= (data Planet4 spectrograph1) 51)
	(= (data Planet4 spectrograph0) 8)
	(= (data Planet2 spectrograph0) 24)
	(= (slew_time GroundStation0 Phenomenon1) 37)
	(= (slew_time GroundStation0 Planet2) 18)
	(= (slew_time GroundStation0 Planet3) 56)
	(= (slew_time GroundStation0 Planet4) 19)
	(= (slew_time Phenomenon1 GroundStation0) 37)
	(= (slew_time Phenomenon1 Planet2) 13)
	(= (slew_time Phenomenon1 Planet3) 39)
	(= (slew_time Phenomenon1 Planet4) 27)
	(= (slew_time Planet2 GroundStation0) 18)
	(= (slew_time Planet2 Phenomenon1) 13)
	(= (slew_time Planet2 Planet3) 22)
	(= (slew_time Planet2 Planet4) 48)
	(= (slew_time Planet3 GroundStation0) 56)
	(= (slew_time Planet3 Phenomenon1) 39)
	(= (slew_time Planet3 Planet2) 22)
	(= (slew_time Planet3 Planet4) 22)
	(= (slew_time Planet4 GroundStation0) 19)
	(= (slew_time Planet4 Phenomenon1) 27)
	(= (slew_time Planet4 Planet2) 48)
	(= (slew_time Planet4 Planet3) 22)
	(= (data-stored) 0)
	(= (fuel-used) 0)
)
(:goal (and
	(pointing satellite0 GroundStation0)
	(have_image Planet4 spectrograph1)
	(have_image Planet4 spectrograph0)
	(have_image Planet2 spectrograph0)
))
(:metric minimize (total-time))

)
