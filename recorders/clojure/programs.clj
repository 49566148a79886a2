(ns programs
  "Programs over recorded refs. `programs FOLDER RUN..` runs one program for each RUN, and writes what it recorded to a
  file of its own in FOLDER. It prints how many transactions committed, and how many attempts all of them took."
  (:require [clojure.string :as string]
            [recorded :as r :refer [cell counter transact]])
  (:import (java.util Random)))

(defn- record
  "Runs a program over some objects, and lets a last transaction read them all."
  [order number objects program]
  (let [threads (r/threads order (inc number))]
    (program (pop threads))
    (transact (peek threads) (run! r/deref objects))
    (assoc (r/counts threads) :lines (r/run-lines objects threads))))

;; ## Correct programs with many threads

(defn- in-parallel
  "Runs `act` for each thread, as often as asked, with random numbers of the thread."
  [act {:keys [each seed]} threads]
  (run! deref (doall (for [{:keys [index] :as thread} threads]
                       (future
                         (let [random (Random. (+ (* 1000 seed) index))]
                           (dotimes [_ each]
                             (act thread #(.nextInt random %)))))))))

(defn- objects [make prefix start number]
  (mapv #(make (str prefix %) start) (range number)))

(defn- transfer [from to amount]
  (r/alter to + amount)
  (Thread/yield)
  (r/alter from - amount)
  (when (neg? (r/deref from))
    (throw (ex-info "overdrawn" {}))))

(defn- bank
  "Audits, and transfers that an exception takes back if an account has too little."
  [order load]
  (let [accounts (objects cell "a" 100 6)]
    (record order (:threads load) accounts
            (partial in-parallel
                     (fn [thread roll]
                       (let [from (roll 6)
                             to (mod (+ from 1 (roll 5)) 6)]
                         (try
                           (if (zero? (roll 4))
                             (transact thread (run! r/deref accounts))
                             (transact thread (transfer (accounts from) (accounts to) (inc (roll 60)))))
                           (catch clojure.lang.ExceptionInfo _))))
                     load))))

(defn- tally
  "Additions by `commute`, and transactions that only look."
  [order load]
  (let [counters (objects counter "c" 0 3)]
    (record order (:threads load) counters
            (partial in-parallel
                     (fn [thread roll]
                       (if (zero? (roll 4))
                         (transact thread (run! r/deref counters))
                         (transact thread
                                   (r/commute (counters (roll 3)) + (inc (roll 9)))
                                   (Thread/yield)
                                   (r/commute (counters (roll 3)) + (inc (roll 9))))))
                     load))))

(defn- on-call
  "Each place may leave if another stays, and comes back later. `ensure` keeps what was seen until the commit. A number
  above 0 is on call, and each number is written once."
  [order load]
  (let [places (objects cell "a" 1 3)
        fresh (atom 1)]
    (record order (:threads load) places
            (partial in-parallel
                     (fn [thread roll]
                       (let [mine (places (roll 3))
                             value (swap! fresh inc)]
                         (transact thread
                                   (let [others (mapv r/ensure (remove #{mine} places))
                                         here (pos? (r/deref mine))]
                                     (Thread/yield)
                                     (cond
                                       (not here) (r/ref-set mine value)
                                       (some pos? others) (r/ref-set mine (- value)))))))
                     load))))

(def ^:private loads {"bank" bank, "tally" tally, "on-call" on-call})

;; ## Programs that run step by step, so that each has one run

(defn- once
  "A function that lets another thread do `act`, and waits for it, when it is called first."
  [act]
  (let [done (delay @(future (act)))]
    #(force done)))

(defn- script [order objects program]
  (record order 2 objects (fn [[p0 p1]] (program p0 p1))))

(defn- adds
  "Two add by `commute` at the same time, and none tries again."
  [order]
  (let [c (counter "c" 0)]
    (script order [c]
            (fn [p0 p1]
              (let [meanwhile (once #(transact p1 (r/commute c + 5)))]
                (transact p0
                          (r/commute c + 1)
                          (meanwhile)))))))

(defn- skew
  "Two are on call, and each leaves because it saw that the other stays."
  [order]
  (let [a (cell "a0" 1)
        b (cell "a1" 1)
        leave-if-both (fn [mine] (when (= 2 (+ (r/deref a) (r/deref b))) mine))]
    (script order [a b]
            (fn [p0 p1]
              (let [meanwhile (once #(transact p1 (some-> (leave-if-both b) (r/ref-set 0))))]
                (transact p0
                          (let [mine (leave-if-both a)]
                            (meanwhile)
                            (some-> mine (r/ref-set 0)))))))))

(defn- stale
  "A transaction copies what it read, and meanwhile another has replaced that. The copy is right before the other."
  [order]
  (let [a (cell "a0" 100)
        b (cell "a1" 0)]
    (script order [a b]
            (fn [p0 p1]
              (let [meanwhile (once #(transact p1 (r/ref-set a 110)))]
                (transact p0
                          (let [seen (r/deref a)]
                            (meanwhile)
                            (r/ref-set b seen))))))))

(defn- numbers
  "Two take a number by what `commute` returns, and get the same one."
  [order]
  (let [c (counter "c" 0)]
    (script order [c]
            (fn [p0 p1]
              (let [meanwhile (once #(transact p1 (r/fetch-commute c + 1)))]
                (transact p0
                          (r/fetch-commute c + 1)
                          (meanwhile)))))))

(defn- peeks
  "A transaction reads a ref after a `commute` of it, and sees what is newer than its snapshot."
  [order]
  (let [c (counter "c" 0)]
    (script order [c]
            (fn [p0 p1]
              (let [meanwhile (once #(transact p1 (r/commute c + 5)))]
                (transact p0
                          (meanwhile)
                          (r/commute c + 1)
                          (r/deref c)))))))

(defn- doubling
  "A `commute` of a function that is no addition."
  [order]
  (let [c (counter "c" 10)]
    (script order [c]
            (fn [p0 p1]
              (let [meanwhile (once #(transact p1 (r/commute c + 5)))]
                (transact p0
                          (r/commute c * 2)
                          (meanwhile)))))))

(defn- early-read
  "A transaction adds to what was read before it began."
  [order]
  (let [a (cell "a0" 100)]
    (script order [a]
            (fn [p0 p1]
              (let [early @(:ref a)]
                (transact p1 (r/alter a + 10))
                (transact p0
                          (r/note-read! a early)
                          (r/ref-set a (+ early 5))))))))

(defn- side-effect
  "A transaction counts itself in an atom. Clojure runs it twice, and it is counted twice."
  [order]
  (let [a (cell "a0" 100)
        n (assoc (counter "n" 0) :ref (atom 0))]
    (script order [a n]
            (fn [p0 p1]
              (let [meanwhile (once #(transact p1 (r/alter a + 10)))]
                (transact p0
                          (r/note! n "fetch_add" [1] (dec (swap! (:ref n) inc)))
                          (meanwhile)
                          (r/alter a + 5)))))))

(def ^:private scripts
  {"adds" adds, "skew" skew, "stale" stale, "numbers" numbers, "peeks" peeks, "doubles" doubling
   "early-read" early-read, "side-effect" side-effect})

;; ## Arguments

(def ^:private orders {"clock" :clock, "snapshot" :snapshot, "ticket" :ticket})

(defn- usage []
  (let [names (comp (partial string/join ", ") sort keys)]
    (str "usage: programs FOLDER RUN.., each RUN \"PROGRAM ORDER\" with PROGRAM one of " (names scripts)
         "; or \"PROGRAM ORDER THREADS TRANSACTIONS SEED\" with PROGRAM one of " (names loads)
         "; ORDER one of " (names orders))))

(defn- parse
  "The program of a RUN as a function, or nil."
  [run]
  (let [[program order & numbers] (string/split run #" ")
        by (orders order)]
    (if (and (= 3 (count numbers)) (every? #(re-matches #"\d{1,6}" %) numbers))
      (when-let [start (and by (loads program))]
        #(start by (zipmap [:threads :each :seed] (map parse-long numbers))))
      (when-let [start (and by (empty? numbers) (scripts program))]
        #(start by)))))

(defn- save! [folder run program]
  (let [{:keys [lines committed attempts]} (program)]
    (spit (str folder "/" (string/replace run " " "-") ".jsonl") (string/join (map #(str % "\n") lines)))
    (println "committed" committed "attempts" attempts)))

(defn -main [& [folder & runs]]
  (let [programs (map parse runs)]
    (when (or (empty? runs) (some nil? programs))
      (binding [*out* *err*] (println (usage)))
      (System/exit 2))
    (run! (fn [[run program]] (save! folder run program)) (map vector runs programs))
    (shutdown-agents)))
