{-# LANGUAGE GeneralizedNewtypeDeriving #-}

-- | GHC's STM, with each read and write of a transaction written down.
--
-- A transaction keeps its calls in a list. Each attempt begins the list anew, so an attempt that STM runs again leaves
-- no lines. The list is an 'IORef' and not a 'TVar', because STM must not take back all of it: a branch of '<|>' that
-- gave up has no writes, but its reads decided that the other branch runs, and STM checks them at the commit too.
module Recorded
  ( -- * Variables and transactions
    Var, newVar, readVar, writeVar
  , Tx, throwTx, catchTx
    -- * Threads
  , Order (..), Thread, newThreads, transact
    -- * What a deliberate mistake needs
  , Call (..), Stamped (..), Committed (..)
  , readVarIO, note, unsafeIO, perform, drawTicket, keep
    -- * The run
  , counts, runLines
  ) where

import Control.Applicative (Alternative (..))
import Control.Concurrent.STM
import Control.Exception (Exception)
import Control.Monad.Trans.Class (lift)
import Control.Monad.Trans.Reader (ReaderT (..), ask)
import Data.Graph (flattenSCC, stronglyConnComp)
import Data.IORef
import Data.List (intercalate, mapAccumL, sortOn)
import qualified Data.Map.Strict as Map
import GHC.Conc (unsafeIOToSTM)

-- | The start of the run, or a transaction by its thread and its number there.
data Name = Start | Name !Int !Int
  deriving (Eq, Ord)

instance Show Name where
  show Start = "t0"
  show (Name thread count) = "p" ++ show thread ++ "_" ++ show count

-- | A value and the transaction that wrote it, which is the version by which 'ByVersions' finds an order.
data Stamped = Stamped { value :: !Int, writer :: !Name }

data Var = Var { varName :: !String, initial :: !Int, cell :: !(TVar Stamped) }

newVar :: String -> Int -> IO Var
newVar object start = Var object start <$> newTVarIO (Stamped start Start)

data Call
  = Read !String !Stamped     -- ^ of a variable: what it returned
  | Write !String !Int !Name  -- ^ to a variable: the new value, and who wrote the old one

callOn :: Call -> String
callOn (Read on _) = on
callOn (Write on _ _) = on

-- * Transactions

data Context = Context { self :: !Name, callList :: !(IORef [Call]) }  -- the last call first

-- | A recorded transaction. 'empty' is @retry@, and '<|>' is @orElse@.
newtype Tx a = Tx { within :: ReaderT Context STM a }
  deriving (Functor, Applicative, Monad)

instance Alternative Tx where
  empty = stm retry
  left <|> right = replaceable left (\first instead -> first `orElse` instead ()) (const right)

throwTx :: Exception e => e -> Tx a
throwTx = stm . throwSTM

catchTx :: Exception e => Tx a -> (e -> Tx a) -> Tx a
catchTx body = replaceable body catchSTM

-- | Joins a part of a transaction with what runs if STM takes that part back. STM may run a part again without the rest
-- of the transaction (GHC 9.0 does so with the body of a @catchSTM@), so each begins with the list that it found at first.
replaceable :: Tx a -> (STM a -> (e -> STM a) -> STM a) -> (e -> Tx a) -> Tx a
replaceable part join instead = Tx $ ReaderT $ \context -> do
  before <- unsafeIOToSTM $ readIORef (callList context)
  remains <- unsafeIOToSTM $ newIORef Nothing  -- the list without the part's writes, once the part was taken back
  let begin = writeIORef remains Nothing >> writeIORef (callList context) before
      replace = do
        list <- readIORef remains >>= maybe (removeWrites before <$> readIORef (callList context)) return
        writeIORef remains (Just list) >> writeIORef (callList context) list
      prepared action tx = unsafeIOToSTM action >> runReaderT (within tx) context
  prepared begin part `join` (prepared replace . instead)

-- | The list without the writes that came after @before@, its tail.
removeWrites :: [Call] -> [Call] -> [Call]
removeWrites before list = reverse (readsOfOthers (reverse part)) ++ before
  where part = take (length list - length before) list

-- | The reads of a part, but for those of values that it wrote itself.
readsOfOthers :: [Call] -> [Call]
readsOfOthers [] = []
readsOfOthers (call@Read {} : later) = call : readsOfOthers later
readsOfOthers (Write on _ _ : later) = readsOfOthers (filter ((/= on) . callOn) later)

readVar :: Var -> Tx Int
readVar var = do
  seen <- stm $ readTVar (cell var)
  note $ Read (varName var) seen
  return $ value seen

-- | The read that finds the old version costs no conflict that @writeTVar@ alone would not have: STM compares the
-- variable with its old value at the commit in any case.
writeVar :: Var -> Int -> Tx ()
writeVar var new = do
  context <- Tx ask
  old <- stm $ readTVar (cell var)
  stm $ writeTVar (cell var) $! Stamped new (self context)
  note $ Write (varName var) new (writer old)

stm :: STM a -> Tx a
stm = Tx . lift

note :: Call -> Tx ()
note call = do
  context <- Tx ask
  unsafeIO $ modifyIORef' (callList context) (call :)

unsafeIO :: IO a -> Tx a
unsafeIO = stm . unsafeIOToSTM

readVarIO :: Var -> IO Call
readVarIO var = Read (varName var) <$> readTVarIO (cell var)

-- * Threads

-- | How the committed transactions are ordered: by a ticket that each draws as its last access, or by the versions that
-- each read and replaced. A ticket makes every two transactions conflict. Versions add no conflict.
data Order = ByTicket | ByVersions
  deriving (Eq, Show)

-- | A committed transaction with its ticket, which is 0 without tickets.
data Committed = Committed { name :: !Name, number :: !Int, callsOf :: [Call] }

data Thread = Thread
  { index :: !Int
  , ticket :: !(Maybe (TVar Int))
  , nextCount :: !(IORef Int)
  , attempts :: !(IORef Int)
  , transactions :: !(IORef [Committed])  -- the last first
  }

newThreads :: Order -> Int -> IO [Thread]
newThreads order count = do
  next <- newTVarIO 0
  let ticketOf = if order == ByTicket then Just next else Nothing
  sequence [Thread i ticketOf <$> newIORef 0 <*> newIORef 0 <*> newIORef [] | i <- [0 .. count - 1]]

-- | Runs a transaction and keeps its lines. If an exception leaves it, it had no effect and leaves no lines.
transact :: Thread -> Tx a -> IO a
transact thread body = do
  ((result, drawn), done) <- perform thread $ (,) <$> body <*> drawTicket thread
  keep thread drawn done
  return result

-- | Runs one @atomically@ block under the thread's next name, and returns the calls of the attempt that committed.
perform :: Thread -> Tx a -> IO (a, [Call])
perform thread body = do
  count <- readIORef (nextCount thread)
  list <- newIORef []
  let beginAnew = writeIORef list [] >> modifyIORef' (attempts thread) (+ 1)
  result <- atomically $ runReaderT (within $ unsafeIO beginAnew >> body) (Context (Name (index thread) count) list)
  done <- readIORef list
  return (result, reverse done)

drawTicket :: Thread -> Tx Int
drawTicket = maybe (return 0) (\next -> stm $ stateTVar next (\n -> (n, n + 1))) . ticket

keep :: Thread -> Int -> [Call] -> IO ()
keep thread drawn done = do
  count <- readIORef (nextCount thread)
  writeIORef (nextCount thread) (count + 1)
  modifyIORef' (transactions thread) (Committed (Name (index thread) count) drawn done :)

-- * The run

-- | How many transactions committed, and how many attempts these took.
counts :: [Thread] -> IO (Int, Int)
counts threads = (,) <$> total nextCount <*> total attempts
  where total part = sum <$> mapM (readIORef . part) threads

-- | The run as lines: a header, and then the transactions in an order in which they can have run one after another.
runLines :: Order -> [Var] -> [Thread] -> IO [String]
runLines order vars threads = do
  everything <- mapM (fmap reverse . readIORef . transactions) threads
  let ordered = if order == ByTicket then sortOn number else byVersions
      started = [var | var <- vars, initial var /= 0]
      transaction nextId one = (nextId + length (callsOf one), transactionLines nextId one)
  return $ header vars started : concat (snd $ mapAccumL transaction (length started) (ordered $ concat everything))

-- | Each transaction after those whose values it read or replaced, after those that read what it replaced, and after the
-- one before it on its thread. If some wait for one another in a circle, no order is right, and these come in any order.
byVersions :: [Committed] -> [Committed]
byVersions run = concatMap flattenSCC $ stronglyConnComp [(one, name one, before one) | one <- run]
  where
    before one = previous (name one) ++ concatMap cause (callsOf one)
    cause (Read _ seen) = [writer seen]
    cause (Write on _ old) = old : Map.findWithDefault [] (on, old) readers
    readers = Map.fromListWith (++) [((on, writer seen), [name one]) | one <- run, Read on seen <- callsOf one]
    previous (Name thread count) = [Name thread (count - 1)]
    previous Start = []

header :: [Var] -> [Var] -> String
header vars started = jsonObject $
  [ ("run", "2"), ("style", show "optimistic")
  , ("objects", jsonArray [jsonObject [("name", show (varName var)), ("kind", show "mem")] | var <- vars])
  ] ++ [("start", jsonObject [("tx", show (show Start)), ("ops", jsonArray ops)]) | not (null ops)]
  where ops = zipWith write [0 ..] started
        write i var = jsonObject $ callMembers i (Write (varName var) (initial var) Start)

transactionLines :: Int -> Committed -> [String]
transactionLines firstId (Committed tx@(Name thread _) _ done) =
  line "begin" [("thread", show ("p" ++ show thread))]
    : zipWith (\i call -> line "op" (callMembers i call)) [firstId ..] done ++ [line "commit" []]
  where line step members = jsonObject $ [("step", show step), ("tx", show (show tx))] ++ members
transactionLines _ (Committed Start _ _) = []

callMembers :: Int -> Call -> [(String, String)]
callMembers i call = [("id", show i), ("on", show (callOn call)), ("call", show word), ("args", args), ("result", result)]
  where (word, args, result) = case call of
          Read _ seen -> ("read", jsonArray ["0"], show (value seen))
          Write _ new _ -> ("write", jsonArray ["0", show new], "null")

jsonObject :: [(String, String)] -> String
jsonObject members = "{" ++ intercalate "," [show key ++ ":" ++ item | (key, item) <- members] ++ "}"

jsonArray :: [String] -> String
jsonArray items = "[" ++ intercalate "," items ++ "]"
