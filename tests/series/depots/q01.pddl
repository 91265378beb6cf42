(define (problem depotprob11) (:domain Depot)
(:objects
	depot0 - Depot
	distributor0 - Distributor
	truck0 - Truck
	pallet0 pallet1 - Pallet
	crate0 crate1 - Crate
	hoist0 hoist1 - Hoist)
(:init
	(at pallet0 depot0)
	(at hoist0 depot0)
	(available hoist0)
	(= (power hoist0) 52)
	(at pallet1 distributor0)
	(at hoist1 distributor0)
	(available hoist1)
	(= (power hoist1) 60)
	(clear pallet1)
	(clear crate1)
	(at truck0 depot0)
	(= (current-load truck0) 0)
	(= (load-limit truck0) 100)
	(at crate0 depot0)
	(on crate0 pallet0)
	(= (weight crate0) 19)
	(= (handling crate0) 2)
	(at crate1 depot0)
	(on crate1 crate0)
	(= (weight crate1) 33)
	(= (handling crate1) 4)
	(= (travel-time depot0 distributor0) 5)
	(= (travel-time distributor0 depot0) 5)
)

(:goal (and
		(on crate1 pallet1)
		(on crate0 crate1)
	)
)

(:metric minimize (total-time)))
