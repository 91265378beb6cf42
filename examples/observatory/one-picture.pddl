; One picture: the small telescope points at orion already, its camera is warm and
; has the wrong filter.
(define (problem one-picture)
  (:domain observatory)
  (:objects
    south - dome
    small - telescope
    wide-field - camera
    red - filter
    fibre - link
    orion - nebula
    till-morning - wet-spell
    evening - clear-spell)

  (:init
    (forecast evening)
    (followed-by evening till-morning)
    (= (spell-length evening) 180)
    (= (spell-length till-morning) 400)

    (closed south)
    (stands-in small south)
    (points-at small orion)
    (= (pace small) 1) (= (settle-time small) 1) (= (focus-error small) 2)

    (mounted wide-field small)
    (calibrated wide-field)
    (= (cool-time wide-field) 20)
    (in-wheel clear-glass wide-field) (in-wheel red wide-field)
    (in-beam clear-glass wide-field)
    (= (wheel-moves wide-field) 0)

    (link-free fibre)
    (= (send-time fibre) 5)
    (= (frame-size) 120) (= (held) 0) (= (disk) 300)

    (= (exposure orion red) 10)
    (= (angle park orion) 5) (= (angle orion park) 5))

  (:goal (and
    (cold wide-field)
    (image orion red)
    (delivered orion red))))
