(define (problem storage-2)
(:domain Storage-Propositional)
(:objects
	depot0-1-1 depot0-1-2 container-0-0 - storearea
	hoist0 - hoist
	crate0 - crate
	container0 - container
	depot0 - depot
	loadarea - transitarea)

(:init
	(connected depot0-1-1 depot0-1-2)
	(connected depot0-1-2 depot0-1-1)
	(connected container-0-0 loadarea)
	(connected loadarea container-0-0)
	(connected depot0-1-1 loadarea)
	(connected loadarea depot0-1-1)
	(clear depot0-1-1)
	(on crate0 container-0-0)
	(in depot0-1-1 depot0)
	(in depot0-1-2 depot0)
	(in crate0 container0)
	(in container-0-0 container0)
	(at hoist0 depot0-1-2)
	(available hoist0))

(:goal (and (in crate0 depot0)))
)
