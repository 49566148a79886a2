(ns recorded
  "Clojure's refs, with each call of a transaction on them written down.

  A transaction sees a snapshot, and what it does can be seen from its commit on. So the lines of an attempt are placed
  as of its snapshot, and the commit line at the commit. A ref, the clock, numbers these moments: each attempt reads it
  first, and a transaction that writes raises it by `commute`, which makes no conflict. Clojure runs the function of a
  `commute` again at the commit, under the lock of the ref, so the last number that it returns is that of the commit."
  (:refer-clojure :exclude [alter commute deref ensure ref-set])
  (:require [clojure.core :as core]
            [clojure.string :as string])
  (:import (clojure.lang LockingTransaction)))

;; ## Objects

(defn cell
  "A ref that is recorded as a `mem`, at address 0."
  [on start]
  {:on on, :kind "mem", :start start, :ref (ref start)})

(defn counter
  "A ref that is recorded as a `counter`, so that a `commute` is an `add`."
  [on start]
  {:on on, :kind "counter", :start start, :ref (ref start)})

;; ## The attempts of the transaction that runs on this thread

(def ^:dynamic ^:private *transaction* nil)

(defn- begin-attempt!
  "Begins a list of calls. Those of attempts that Clojure gave up are kept, to be recorded with a `retry`."
  []
  (let [snapshot (core/deref (:clock @*transaction*))]
    (vswap! *transaction* update :attempts conj {:snapshot snapshot, :calls []})))

(defn- in-attempt! [change]
  (vswap! *transaction* update :attempts #(conj (pop %) (change (peek %)))))

(defn- raise-clock! []
  (let [{:keys [order clock attempts]} @*transaction*]
    (when-not (or (:commit (peek attempts)) (= order :ticket))
      (core/commute clock (fn [now]
                            (in-attempt! #(assoc % :commit (inc now)))
                            (inc now))))))

(defn- draw-ticket!
  "The last access of a transaction that is ordered by tickets. Every two such transactions conflict."
  []
  (let [{:keys [order clock]} @*transaction*]
    (when (= order :ticket)
      (let [number (core/alter clock inc)]
        (in-attempt! #(assoc % :commit number))))))

(defn note!
  "Writes down a call, also one that was made by other means than the functions below."
  [object call args result]
  (in-attempt! #(update % :calls conj {:on (:on object), :call call, :args args, :result result})))

(defn note-read! [{:keys [kind] :as object} value]
  (if (= kind "mem")
    (note! object "read" [0] value)
    (note! object "get" [] value)))

;; ## What a transaction calls

(defn deref [object]
  (let [value (core/deref (:ref object))]
    (note-read! object value)
    value))

(defn ensure [object]
  (let [value (core/ensure (:ref object))]
    (note-read! object value)
    value))

(defn ref-set [{:keys [kind] :as object} value]
  (assert (= kind "mem") "a counter has no line for a value that is put")
  (core/ref-set (:ref object) value)
  (raise-clock!)
  (note! object "write" [0 value] nil)
  value)

(defn- change-ref
  "Runs `change`, which is `alter` or `commute`, and returns the value that it found and the value that it made."
  [change object f args]
  (let [found (volatile! nil)
        made (change (:ref object) (fn [value]
                                     (vreset! found value)
                                     (apply f value args)))]
    (raise-clock!)
    [@found made]))

(defn alter [{:keys [kind] :as object} f & args]
  (let [[found made] (change-ref core/alter object f args)]
    (if (= kind "mem")
      (do (note! object "read" [0] found)
          (note! object "write" [0 made] nil))
      (note! object "fetch_add" [(- made found)] found))
    made))

(defn commute
  "Records what was added. It returns nothing, since `add` has no result: see `fetch-commute`."
  [object f & args]
  (let [[found made] (change-ref core/commute object f args)]
    (note! object "add" [(- made found)] nil)
    nil))

(defn fetch-commute
  "A `commute` whose value the transaction uses: a `fetch_add`, which says what was found."
  [object f & args]
  (let [[found made] (change-ref core/commute object f args)]
    (note! object "fetch_add" [(- made found)] found)
    made))

;; ## Threads

(defn threads
  "Threads of one run, each with its transactions in the order in which they ended. `order` is one of
  - `:clock`: the lines of an attempt as of its snapshot, the commit line of a transaction that wrote at its commit;
  - `:snapshot`: the commit line as of the snapshot too;
  - `:ticket`: all lines of a transaction under the number that it drew as its last access."
  [order number]
  ;; Each commit replaces the clock's value, and an attempt needs the one of its snapshot, so old ones are kept.
  (let [clock (ref 0 :min-history 16 :max-history 4096)]
    (mapv (fn [index] {:order order, :clock clock, :index index, :transactions (atom [])})
          (range number))))

(defn- run-and-keep [{:keys [order clock transactions]} body]
  (let [transaction (volatile! {:order order, :clock clock, :attempts []})
        end! (fn [end] (swap! transactions conj {:attempts (:attempts @transaction), :end end}))]
    (binding [*transaction* transaction]
      (try
        (let [result (dosync
                      (begin-attempt!)
                      (let [result (body)]
                        (draw-ticket!)
                        result))]
          (end! "commit")
          result)
        (catch Exception thrown
          (end! "abort")
          (throw thrown))))))

(defn transact* [thread body]
  (if (LockingTransaction/isRunning)
    (body)
    (run-and-keep thread body)))

(defmacro transact
  "A recorded `dosync`. If an exception leaves it, it is recorded with an `abort`. One inside another belongs to it."
  [thread & body]
  `(transact* ~thread (fn [] ~@body)))

;; ## The run

(defn- place
  "Where a line of an attempt is in the run: a number of the clock, with 0 for the commit that makes it and 1 for what
  sees it. With tickets all lines of a transaction have one place."
  [order {:keys [snapshot commit]} step]
  (cond
    (= order :ticket) [commit 0]
    (and commit (= [step order] ["commit" :clock])) [commit 0]
    :else [snapshot 1]))

(defn- transaction-lines [{:keys [order index]} number {:keys [attempts end]}]
  (let [tx (str "p" index "_" number)
        ends (concat (repeat (dec (count attempts)) "retry") [end])
        placed (fn [attempt {:keys [step] :as line}] {:place (place order attempt step), :line line})
        lines (fn [attempt end]
                (map #(placed attempt %)
                     (concat (for [call (:calls attempt)] (merge {:step "op", :tx tx, :id nil} call))
                             [{:step end, :tx tx}])))]
    (cons (placed (first attempts) {:step "begin", :tx tx, :thread (str "p" index)})
          (mapcat lines attempts ends))))

(defn- thread-lines [{:keys [order transactions] :as thread}]
  (let [shown (if (= order :ticket)
                (for [{:keys [end] :as transaction} (core/deref transactions) :when (= end "commit")]
                  (update transaction :attempts #(vector (peek %))))
                (core/deref transactions))]
    (mapcat #(transaction-lines thread %1 %2) (range) shown)))

(defn- number-calls
  "Gives each call an id of its own, in the order of the lines."
  [first-id lines]
  (let [ids (reductions (fn [id line] (if (contains? line :id) (inc id) id)) first-id lines)]
    (map (fn [line id] (if (contains? line :id) (assoc line :id id) line)) lines ids)))

(defn- json [value]
  (cond
    (map? value) (str "{" (string/join "," (for [[k v] value] (str (json (name k)) ":" (json v)))) "}")
    (sequential? value) (str "[" (string/join "," (map json value)) "]")
    (string? value) (str \" value \")
    (nil? value) "null"
    :else (str value)))

(defn- start-call [{:keys [on kind start]}]
  (if (= kind "mem")
    {:id nil, :on on, :call "write", :args [0 start], :result nil}
    {:id nil, :on on, :call "add", :args [start], :result nil}))

(defn run-lines
  "The run as lines of text. Lines of one place stay in the order of the threads."
  [objects threads]
  (let [start (map start-call (remove #(zero? (:start %)) objects))
        header (cond-> {:run 2, :style "optimistic"
                        :objects (for [{:keys [on kind]} objects] {:name on, :kind kind})}
                 (seq start) (assoc :start {:tx "t0", :ops (number-calls 0 start)}))
        lines (map :line (sort-by :place (mapcat thread-lines threads)))]
    (map json (cons header (number-calls (count start) lines)))))

(defn counts
  "How many transactions committed, and how many attempts all of them took."
  [threads]
  (let [transactions (mapcat #(core/deref (:transactions %)) threads)]
    {:committed (count (filter #(= "commit" (:end %)) transactions))
     :attempts (reduce + (map #(count (:attempts %)) transactions))}))
