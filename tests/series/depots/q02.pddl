(define (problem depotprob12) (:domain Depot)
(:objects
	depot0 - Depot
	distributor0 - Distributor
	truck0 - Truck
	pallet0 pallet1 - Pallet
	crate0 crate1 crate2 - Crate
	hoist0 hoist1 - Hoist)
(:init
	(at pallet0 depot0)
	(at hoist0 depot0)
	(available hoist0)
	(= (power hoist0) 60)
	(at pallet1 distributor0)
	(at hoist1 distributor0)
	(available hoist1)
	(= (power hoist1) 46)
	(clear pallet1)
	(clear crate2)
	(at truck0 depot0)
	(= (current-load truck0) 0)
	(= (load-limit truck0) 93)
	(at crate0 depot0)
	(on crate0 pallet0)
	(= (weight crate0) 6)
	(= (handling crate0) 1)
	(at crate1 depot0)
	(on crate1 crate0)
	(= (weight crate1) 13)
	(= (handling crate1) 2)
	(at crate2 depot0)
	(on crate2 crate1)
	(= (weight crate2) 6)
	(= (handling crate2) 1)
	(= (travel-time depot0 distributor0) 5)
	(= (travel-time distributor0 depot0) 5)
)

(:goal (and
		(on crate2 pallet1)
		(on crate1 crate2)
		(on crate0 crate1)
	)
)

(:metric minimize (total-time)))
