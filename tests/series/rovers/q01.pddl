(define (problem roverprob11) (:domain Rover)
(:objects
	general - Lander
	colour - Mode
	rover0 - Rover
	rover0store - Store
	waypoint0 waypoint1 waypoint2 - Waypoint
	camera0 - Camera
	objective0 - Objective
	)
(:init
	(visible waypoint0 waypoint1)
	(visible waypoint0 waypoint2)
	(visible waypoint1 waypoint0)
	(visible waypoint1 waypoint2)
	(visible waypoint2 waypoint0)
	(visible waypoint2 waypoint1)
	(at_lander general waypoint0)
	(channel_free general)
	(at_soil_sample waypoint2)
	(at_rock_sample waypoint1)
	(in_sun waypoint2)
	(visible_from objective0 waypoint0)
	(visible_from objective0 waypoint2)
	(= (recharges) 0)
	(at rover0 waypoint2)
	(available rover0)
	(store_of rover0store rover0)
	(empty rover0store)
	(equipped_for_soil_analysis rover0)
	(equipped_for_rock_analysis rover0)
	(equipped_for_imaging rover0)
	(on_board camera0 rover0)
	(calibration_target camera0 objective0)
	(= (energy rover0) 85)
	(= (battery rover0) 160)
	(= (recharge-rate rover0) 6)
	(= (session rover0) 14)
	(supports camera0 colour)
	(can_traverse rover0 waypoint0 waypoint1)
	(can_traverse rover0 waypoint0 waypoint2)
	(can_traverse rover0 waypoint1 waypoint0)
	(can_traverse rover0 waypoint1 waypoint2)
	(can_traverse rover0 waypoint2 waypoint0)
	(can_traverse rover0 waypoint2 waypoint1)
	(= (drive-time rover0 waypoint0 waypoint1) 6)
	(= (drive-time rover0 waypoint0 waypoint2) 9)
	(= (drive-time rover0 waypoint1 waypoint0) 7)
	(= (drive-time rover0 waypoint1 waypoint2) 6)
	(= (drive-time rover0 waypoint2 waypoint0) 6)
	(= (drive-time rover0 waypoint2 waypoint1) 4)
)

(:goal (and
(communicated_soil_data waypoint2)
(communicated_rock_data waypoint1)
	)
)

(:metric minimize (recharges))
)
