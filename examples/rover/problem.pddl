; A day's work: rock and soil for the lander, pictures of two outcrops, and what was
; found out about them sent home.
(define (problem long-day)
  (:domain rover)
  (:objects
    ridge gully rim delta dunes ledge saddle basin spring - waypoint
    ada bert - rover
    base - lander
    relay-east relay-west - orbiter
    east-1 east-2 west-1 west-2 - pass
    basalt shale breccia - rock
    clay loam - soil
    drift - dust
    butte layers crater-wall - objective
    wide zoom mono - camera)

  (:init
    (at ada lander-site) (at bert lander-site) (at base lander-site)
    (arm-stowed ada) (arm-stowed bert)
    (climber bert)
    (on-board wide ada) (on-board mono ada) (on-board zoom bert)
    (= (pace ada) 2) (= (effort ada) 3)
    (= (pace bert) 3) (= (effort bert) 2)
    (= (energy ada) 40) (= (capacity ada) 60)
    (= (energy bert) 30) (= (capacity bert) 50)
    (= (reserve) 5)
    (= (odometer ada) 0) (= (odometer bert) 0)
    (= (load ada) 0) (= (hold-size ada) 2)
    (= (load bert) 0) (= (hold-size bert) 1)
    (= (bit-wear ada) 1) (= (bit-wear bert) 1)

    (sunlit lander-site) (sunlit ridge) (sunlit rim) (sunlit delta) (sunlit saddle)
    (lies-at basalt ridge) (lies-at shale ledge) (lies-at breccia gully)
    (lies-at clay delta) (lies-at loam basin) (lies-at drift dunes)
    (= (hardness basalt) 4) (= (hardness shale) 2) (= (hardness breccia) 3)
    (in-sight butte ridge) (in-sight butte saddle)
    (in-sight layers ledge) (in-sight layers saddle)
    (in-sight crater-wall rim)
    (= (exposure wide) 4) (= (exposure mono) 2) (= (exposure zoom) 6)

    (next-pass relay-east east-1) (next-pass relay-west west-1)
    (comes-after east-2 east-1) (comes-after west-2 west-1)
    (= (pass-length east-1) 25) (= (pass-length west-1) 30)
    (= (pass-length east-2) 25) (= (pass-length west-2) 20)
    (= (gap-before east-2) 40) (= (gap-before west-2) 30)
    (= (dishes relay-east) 1) (= (dishes relay-west) 2)
    (= (channels relay-east) 0) (= (channels relay-west) 0)
    (= (bandwidth relay-east) 2) (= (bandwidth relay-west) 3)
    (= (volume-sent) 0)
    (= (record-size basalt) 5) (= (record-size shale) 5) (= (record-size breccia) 5)
    (= (record-size clay) 4) (= (record-size loam) 4) (= (record-size drift) 3)
    (= (record-size butte) 8) (= (record-size layers) 8)
    (= (record-size crater-wall) 10)

    ; Ways, both directions.
    (firm lander-site ridge) (firm ridge lander-site)
    (firm lander-site delta) (firm delta lander-site)
    (firm ridge rim) (firm rim ridge)
    (firm ridge saddle) (firm saddle ridge)
    (firm delta dunes) (firm dunes delta)
    (firm delta basin) (firm basin delta)
    (firm basin spring) (firm spring basin)
    (rough saddle ledge) (rough ledge saddle)
    (rough lander-site saddle) (rough saddle lander-site)
    (rough rim gully) (rough gully rim)
    (= (distance lander-site ridge) 4) (= (distance ridge lander-site) 4)
    (= (distance lander-site delta) 3) (= (distance delta lander-site) 3)
    (= (distance ridge rim) 3) (= (distance rim ridge) 3)
    (= (distance ridge saddle) 2) (= (distance saddle ridge) 2)
    (= (distance delta dunes) 5) (= (distance dunes delta) 5)
    (= (distance delta basin) 2) (= (distance basin delta) 2)
    (= (distance basin spring) 4) (= (distance spring basin) 4)
    (= (distance saddle ledge) 2) (= (distance ledge saddle) 2)
    (= (distance lander-site saddle) 4) (= (distance saddle lander-site) 4)
    (= (distance rim gully) 3) (= (distance gully rim) 3))

  (:goal (and
    (delivered basalt)
    (delivered clay)
    (received basalt) (received shale)
    (received butte) (received layers)
    (or (received clay) (received loam))
    (>= (volume-sent) 60)
    (forall (?r - rover)
      (and (at ?r lander-site) (arm-stowed ?r) (not (mast-up ?r))))
    (exists (?r - rover) (>= (energy ?r) 20)))))
