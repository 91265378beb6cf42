(define (problem nights-11)
  (:domain observatory)
  (:objects
    t1 - telescope
    night1 - night
    session1 - session
    hd82301 - standard
    ngc100 - nebula
    vee red - broad
    halpha oiii - narrow)
  (:init
    (link-free)
    (= (archive) 0)
    (upcoming night1)
    (planned session1 night1)
    (= (length night1) 117)
    (up hd82301 night1)
    (pointing t1 zenith)
    (wheel t1 empty-hole)
    (= (wheel-time t1) 2)
    (= (frame t1) 8)
    (= (memory t1) 20)
    (fits t1 vee)
    (fits t1 red)
    (fits t1 halpha)
    (fits t1 oiii)
    (fits t1 empty-hole)
    (up ngc100 night1)
    (= (flux ngc100) 17)
    (= (least ngc100 oiii) 5)
    (= (most ngc100 oiii) 11)
    (= (photons ngc100 oiii) 0)
    (= (least ngc100 red) 8)
    (= (most ngc100 red) 14)
    (= (photons ngc100 red) 0)
    (= (slew-time hd82301 zenith) 3)
    (= (slew-time zenith hd82301) 3)
    (= (slew-time hd82301 ngc100) 5)
    (= (slew-time ngc100 hd82301) 5)
    (= (slew-time ngc100 zenith) 5)
    (= (slew-time zenith ngc100) 5))
  (:goal (and
    (delivered ngc100 oiii)
    (>= (photons ngc100 oiii) 85)
    (delivered ngc100 red)
    (>= (photons ngc100 red) 136)
    (forall (?t - telescope) (pointing ?t zenith))))
  (:metric minimize (total-time)))
