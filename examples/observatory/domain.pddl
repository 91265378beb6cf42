; A robotic observatory.  Time is in minutes, data in megabytes.
;
; Domes keep the weather out; telescopes slew from one position to another;
; cameras and spectrographs are changed at the park position; pictures go to
; the data centre over a link, and the disk in between is small.
(define (domain observatory)
  (:requirements :adl :typing :equality :fluents
                 :durative-actions :duration-inequalities)

  (:types
    dome telescope instrument filter link spell position - object
    camera spectrograph guider - instrument
    target flat-screen - position
    star nebula galaxy - target
    clear-spell wet-spell - spell)

  (:constants
    park - position        ; where telescopes rest and are worked on
    clear-glass - filter)  ; the filter wheel's empty place

  (:predicates
    ; weather and domes
    (forecast ?s - spell)
    (followed-by ?s ?next - spell)
    (clear-sky)
    (closed ?d - dome)
    (open ?d - dome)
    (stands-in ?t - telescope ?d - dome)
    ; pointing
    (points-at ?t - telescope ?p - position)
    (shutter-open ?t - telescope)
    ; instruments
    (port-free ?t - telescope)
    (on-shelf ?i - instrument)
    (mounted ?i - instrument ?t - telescope)
    (cold ?c - camera)
    (calibrated ?i - instrument)
    (in-wheel ?f - filter ?c - camera)
    (in-beam ?f - filter ?c - camera)
    ; results
    (image ?x - target ?f - filter)
    (delivered ?x - target ?f - filter)
    (link-free ?l - link))

  (:functions
    (spell-length ?s - spell)
    (angle ?from ?to - position)     ; given only where the mount may turn so
    (pace ?t - telescope)            ; minutes for one unit of angle
    (settle-time ?t - telescope)
    (focus-error ?t - telescope)     ; doubles with each slew
    (cool-time ?c - camera)
    (exposure ?x - target ?f - filter)
    (brightness ?x - star)
    (throughput ?s - spectrograph)
    (signal ?x - star)
    (frame-size)
    (held) (disk)                    ; what the disk holds, and may hold
    (send-time ?l - link)
    (wheel-moves ?c - camera))

  ; Weather is a chain of spells.  A clear one opens the sky; when it ends every
  ; dome has to be closed.
  (:durative-action sky-is-clear
    :parameters (?s - clear-spell ?next - spell)
    :duration (= ?duration (spell-length ?s))
    :condition (and (at start (forecast ?s))
                    (at start (followed-by ?s ?next))
                    (forall (?d - dome) (at end (closed ?d))))
    :effect (and (at start (not (forecast ?s)))
                 (at start (clear-sky))
                 (at end (not (clear-sky)))
                 (at end (forecast ?next))))

  (:durative-action rain-passes
    :parameters (?s - wet-spell ?next - spell)
    :duration (= ?duration (spell-length ?s))
    :condition (and (at start (forecast ?s))
                    (at start (followed-by ?s ?next))
                    (forall (?d - dome) (over all (closed ?d))))
    :effect (and (at start (not (forecast ?s)))
                 (at end (forecast ?next))))

  (:durative-action open-dome
    :parameters (?d - dome)
    :duration (= ?duration 3)
    :condition (and (at start (closed ?d)) (over all (clear-sky)))
    :effect (and (at start (not (closed ?d))) (at end (open ?d))))

  (:durative-action close-dome
    :parameters (?d - dome)
    :duration (= ?duration 3)
    :condition (and (at start (open ?d))
                    (over all (forall (?t - telescope)
                      (imply (stands-in ?t ?d) (not (shutter-open ?t))))))
    :effect (and (at start (not (open ?d))) (at end (closed ?d))))

  (:durative-action slew
    :parameters (?t - telescope ?from ?to - position)
    :duration (= ?duration (+ (settle-time ?t) (* (angle ?from ?to) (pace ?t))))
    :condition (and (at start (points-at ?t ?from))
                    (at start (not (= ?from ?to)))
                    (over all (not (shutter-open ?t))))
    :effect (and (at start (not (points-at ?t ?from)))
                 (at end (points-at ?t ?to))
                 (at end (scale-up (focus-error ?t) 2))))

  (:durative-action focus
    :parameters (?t - telescope)
    :duration (and (>= ?duration 2) (<= ?duration 5))
    :condition (and (at start (not (shutter-open ?t)))
                    (over all (exists (?x - target) (points-at ?t ?x)))
                    (over all (forall (?d - dome)
                      (imply (stands-in ?t ?d) (open ?d)))))
    :effect (at end (assign (focus-error ?t) 1)))

  ; Guiders stay where they are; cameras and spectrographs are changed.
  (:durative-action mount
    :parameters (?i - (either camera spectrograph) ?t - telescope)
    :duration (= ?duration 12)
    :condition (and (at start (on-shelf ?i))
                    (at start (port-free ?t))
                    (over all (points-at ?t park)))
    :effect (and (at start (not (on-shelf ?i)))
                 (at start (not (port-free ?t)))
                 (at end (mounted ?i ?t))))

  (:durative-action unmount
    :parameters (?i - (either camera spectrograph) ?t - telescope)
    :duration (= ?duration 8)
    :condition (and (at start (mounted ?i ?t))
                    (over all (points-at ?t park)))
    :effect (and (at start (not (mounted ?i ?t)))
                 (at end (not (calibrated ?i)))
                 (at end (on-shelf ?i))
                 (at end (port-free ?t))))

  (:durative-action cool
    :parameters (?c - camera)
    :duration (and (>= ?duration (cool-time ?c))
                   (<= ?duration (+ (cool-time ?c) 10)))
    :condition (at start (not (cold ?c)))
    :effect (at end (cold ?c)))

  (:durative-action take-flats
    :parameters (?t - telescope ?i - (either camera spectrograph) ?p - flat-screen)
    :duration (= ?duration 6)
    :condition (and (at start (not (shutter-open ?t)))
                    (over all (mounted ?i ?t))
                    (over all (points-at ?t ?p)))
    :effect (and (at start (shutter-open ?t))
                 (at end (not (shutter-open ?t)))
                 (at end (calibrated ?i))))

  (:action turn-wheel
    :parameters (?c - camera ?from ?to - filter)
    :precondition (and (in-beam ?from ?c) (in-wheel ?to ?c) (not (= ?from ?to))
                       (forall (?t - telescope)
                         (imply (mounted ?c ?t) (not (shutter-open ?t)))))
    :effect (and (not (in-beam ?from ?c)) (in-beam ?to ?c)
                 (increase (wheel-moves ?c) 1)))

  (:durative-action expose
    :parameters (?t - telescope ?c - camera ?f - filter ?x - target)
    :duration (= ?duration (exposure ?x ?f))
    :condition (and (at start (cold ?c))
                    (at start (calibrated ?c))
                    (at start (not (shutter-open ?t)))
                    (over all (mounted ?c ?t))
                    (over all (in-beam ?f ?c))
                    (over all (points-at ?t ?x))
                    (over all (forall (?d - dome)
                      (imply (stands-in ?t ?d) (open ?d))))
                    (over all (<= (focus-error ?t) 4))
                    (over all (<= (held) (disk))))
    :effect (and (at start (shutter-open ?t))
                 (at start (increase (held) (frame-size)))
                 (at end (not (shutter-open ?t)))
                 (at end (image ?x ?f))))

  ; The longer a spectrum is recorded, the more signal it brings.
  (:durative-action record-spectrum
    :parameters (?t - telescope ?s - spectrograph ?x - star)
    :duration (and (>= ?duration 5) (<= ?duration 60))
    :condition (and (at start (calibrated ?s))
                    (at start (not (shutter-open ?t)))
                    (over all (mounted ?s ?t))
                    (over all (points-at ?t ?x))
                    (over all (forall (?d - dome)
                      (imply (stands-in ?t ?d) (open ?d))))
                    (over all (<= (focus-error ?t) 8)))
    :effect (and (at start (shutter-open ?t))
                 (at end (not (shutter-open ?t)))
                 (at end (increase (signal ?x)
                   (* ?duration (* (brightness ?x) (throughput ?s)))))))

  (:durative-action downlink
    :parameters (?l - link ?x - target ?f - filter)
    :duration (and (>= ?duration (send-time ?l))
                   (<= ?duration (* 2 (send-time ?l))))
    :condition (and (at start (image ?x ?f)) (at start (link-free ?l)))
    :effect (and (at start (not (link-free ?l)))
                 (at end (link-free ?l))
                 (at end (delivered ?x ?f))
                 (at end (decrease (held) (frame-size))))))
