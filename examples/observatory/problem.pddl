; One night: drizzle, then three hours of clear sky, then rain till morning.
(define (problem one-night)
  (:domain observatory)
  (:objects
    north south - dome
    great small - telescope             ; great stands in north, small in south
    wide-field narrow-field - camera
    echelle - spectrograph
    star-guider - guider
    red green blue h-alpha - filter
    dish fibre - link
    andromeda triangulum - galaxy
    orion ring - nebula
    vega deneb altair - star
    north-screen south-screen - flat-screen
    drizzle till-morning - wet-spell
    evening - clear-spell)

  (:init
    (forecast drizzle)
    (followed-by drizzle evening)
    (followed-by evening till-morning)
    (= (spell-length drizzle) 30)
    (= (spell-length evening) 180)
    (= (spell-length till-morning) 400)

    (closed north) (closed south)
    (stands-in great north) (stands-in small south)
    (points-at great park) (points-at small park)
    (port-free great) (port-free small)
    (= (pace great) 2) (= (settle-time great) 1) (= (focus-error great) 2)
    (= (pace small) 1) (= (settle-time small) 1) (= (focus-error small) 2)

    (on-shelf wide-field) (on-shelf narrow-field) (on-shelf echelle)
    (= (cool-time wide-field) 20) (= (cool-time narrow-field) 35)
    (in-wheel clear-glass wide-field) (in-wheel red wide-field)
    (in-wheel green wide-field) (in-wheel blue wide-field)
    (in-wheel h-alpha wide-field)
    (in-wheel clear-glass narrow-field) (in-wheel h-alpha narrow-field)
    (in-beam clear-glass wide-field) (in-beam clear-glass narrow-field)
    (= (wheel-moves wide-field) 0) (= (wheel-moves narrow-field) 0)
    (= (throughput echelle) 3)
    (= (brightness vega) 9) (= (brightness deneb) 4) (= (brightness altair) 7)
    (= (signal vega) 0) (= (signal deneb) 0) (= (signal altair) 0)

    (link-free dish) (link-free fibre)
    (= (send-time dish) 8) (= (send-time fibre) 5)
    (= (frame-size) 120) (= (held) 0) (= (disk) 300)

    (= (exposure orion h-alpha) 20) (= (exposure orion red) 10)
    (= (exposure orion green) 10) (= (exposure orion blue) 12)
    (= (exposure ring h-alpha) 25) (= (exposure ring red) 15)
    (= (exposure andromeda red) 14) (= (exposure andromeda green) 14)
    (= (exposure andromeda blue) 18) (= (exposure andromeda clear-glass) 6)
    (= (exposure triangulum red) 16) (= (exposure triangulum clear-glass) 8)

    ; The ways the mounts may turn, both directions of each.
    (= (angle park north-screen) 2) (= (angle north-screen park) 2)
    (= (angle park south-screen) 2) (= (angle south-screen park) 2)
    (= (angle park orion) 5) (= (angle orion park) 5)
    (= (angle park andromeda) 6) (= (angle andromeda park) 6)
    (= (angle park triangulum) 6) (= (angle triangulum park) 6)
    (= (angle park ring) 4) (= (angle ring park) 4)
    (= (angle park vega) 3) (= (angle vega park) 3)
    (= (angle park deneb) 4) (= (angle deneb park) 4)
    (= (angle park altair) 5) (= (angle altair park) 5)
    (= (angle north-screen orion) 6) (= (angle orion north-screen) 6)
    (= (angle north-screen andromeda) 7) (= (angle andromeda north-screen) 7)
    (= (angle south-screen vega) 4) (= (angle vega south-screen) 4)
    (= (angle south-screen orion) 5) (= (angle orion south-screen) 5)
    (= (angle orion andromeda) 4) (= (angle andromeda orion) 4)
    (= (angle andromeda triangulum) 1) (= (angle triangulum andromeda) 1)
    (= (angle vega deneb) 2) (= (angle deneb vega) 2)
    (= (angle vega altair) 3) (= (angle altair vega) 3)
    (= (angle deneb altair) 3) (= (angle altair deneb) 3)
    (= (angle vega ring) 1) (= (angle ring vega) 1))

  (:goal (and
    (delivered orion h-alpha)
    (delivered orion red)
    (or (delivered andromeda red) (delivered triangulum red))
    (forall (?x - star) (>= (signal ?x) 300))
    (<= (held) 0)
    (forall (?t - telescope) (points-at ?t park))
    (forall (?d - dome) (closed ?d))))
  (:metric minimize (total-time)))
