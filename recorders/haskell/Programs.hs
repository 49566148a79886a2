{-# LANGUAGE LambdaCase #-}

-- | Programs over recorded transactions. @programs FOLDER RUN..@ runs one program for each RUN, and writes what it
-- recorded to a file of its own in FOLDER. It prints how many transactions committed, and how many attempts these took.
module Main (main) where

import Control.Applicative (Alternative (..))
import Control.Concurrent (forkFinally, newEmptyMVar, putMVar, takeMVar, yield)
import Control.Exception (Exception, throwIO)
import Control.Monad (forM_, replicateM_, unless, when, zipWithM_)
import Data.Bits (shiftL, shiftR, xor)
import Data.IORef
import Data.List (intercalate)
import Data.Word (Word64)
import Recorded
import System.Environment (getArgs)
import System.Exit (exitWith, ExitCode (..))
import System.IO (hPutStrLn, hSetBuffering, BufferMode (..), stderr, stdout)
import Text.Read (readMaybe)

main :: IO ()
main = getArgs >>= \case
  folder : runs@(_ : _) | Just programs <- mapM (programOf . words) runs -> do
    hSetBuffering stdout LineBuffering
    zipWithM_ (save folder) runs programs
  _ -> hPutStrLn stderr usage >> exitWith (ExitFailure 2)

usage :: String
usage = "usage: programs FOLDER RUN.., each RUN \"PROGRAM ORDER\" with PROGRAM one of " ++ names scripts
  ++ "; or \"PROGRAM ORDER THREADS TRANSACTIONS SEED\" with PROGRAM one of " ++ names loads
  ++ "; ORDER one of " ++ names orders
  where names :: [(String, a)] -> String
        names = intercalate ", " . map fst

programOf :: [String] -> Maybe (IO Recording)
programOf [program, order] = lookup program scripts <*> lookup order orders
programOf [program, order, threads, each, seed] =
  lookup program loads <*> lookup order orders <*> (Load <$> readMaybe threads <*> readMaybe each <*> readMaybe seed)
programOf _ = Nothing

orders :: [(String, Order)]
orders = [("ticket", ByTicket), ("versions", ByVersions)]

save :: FilePath -> String -> IO Recording -> IO ()
save folder run program = do
  recording <- program
  writeFile (folder ++ "/" ++ map (\c -> if c == ' ' then '-' else c) run ++ ".jsonl") (unlines $ recordedLines recording)
  putStrLn $ "committed " ++ show (committed recording) ++ " attempts " ++ show (attempted recording)

data Recording = Recording { recordedLines :: [String], committed, attempted :: Int }

-- | Runs a program over some variables, and lets a last transaction read them all.
record :: Order -> Int -> [Var] -> ([Thread] -> IO ()) -> IO Recording
record order count vars program = do
  threads <- newThreads order (count + 1)
  program (take count threads)
  transact (last threads) $ mapM_ readVar vars
  recorded <- runLines order vars threads
  uncurry (Recording recorded) <$> counts threads

newVars :: String -> [Int] -> IO [Var]
newVars prefix starts = sequence [newVar (prefix ++ show i) start | (i, start) <- zip [0 :: Int ..] starts]

-- * Correct programs with many threads

data Load = Load { threadCount, transactionsEach, seedOf :: Int }

loads :: [(String, Order -> Load -> IO Recording)]
loads = [("bank", bank), ("slots", slots)]

-- | Audits, and transfers that use 'empty', '<|>' and exceptions.
bank :: Order -> Load -> IO Recording
bank order load = do
  accounts <- newVars "a" (replicate 6 100)
  record order (threadCount load) accounts $ \threads -> inParallel
    [ mapM_ (transact thread . banking accounts) (take (transactionsEach load) (rolls (seedOf load) i))
    | (i, thread) <- zip [0 ..] threads ]

banking :: [Var] -> Int -> Tx ()
banking accounts roll = case roll `mod` 8 of
  0 -> mapM_ readVar accounts
  1 -> overdraw from to amount
  2 -> ((withdraw from amount <|> withdraw other amount) >> deposit to amount) <|> return ()
  _ -> (withdraw from amount >> deposit to amount) <|> return ()
  where
    account n = accounts !! (n `mod` length accounts)
    first = roll `div` 8
    (from, to, other) = (account first, account (first + 1 + roll `div` 64 `mod` 2), account (first + 3))
    amount = 1 + roll `div` 512 `mod` 60

-- | Lets other threads run between the read and the write, so that transactions meet.
withdraw :: Var -> Int -> Tx ()
withdraw account amount = do
  balance <- readVar account
  when (balance < amount) empty
  unsafeIO yield
  writeVar account (balance - amount)

deposit :: Var -> Int -> Tx ()
deposit account amount = readVar account >>= writeVar account . (+ amount)

data Overdrawn = Overdrawn
  deriving Show

instance Exception Overdrawn

-- | Deposits first. If the other account has too little, an exception takes the deposit back.
overdraw :: Var -> Var -> Int -> Tx ()
overdraw from to amount = pay `catchTx` \Overdrawn -> return ()
  where pay = deposit to amount >> (withdraw from amount <|> throwTx Overdrawn)

-- | Half of the threads fill slots and wait while all are full. The others empty them and wait while all are empty.
slots :: Order -> Load -> IO Recording
slots order load = do
  vars <- newVars "s" [0, 0, 0]
  let half = threadCount load `div` 2
      values i = [seedOf load * 1000000 + i * 10000 + n | n <- [1 .. transactionsEach load]]
  record order (2 * half) vars $ \threads -> inParallel $
    [mapM_ (transact thread . fill vars) (values i) | (i, thread) <- zip [0 ..] (take half threads)]
      ++ [replicateM_ (transactionsEach load) (transact thread (takeOut vars)) | thread <- drop half threads]

-- | A slot with 0 is empty.
fill :: [Var] -> Int -> Tx ()
fill vars new = foldr (\var others -> fillOne var <|> others) empty vars
  where fillOne var = readVar var >>= \old -> unless (old == 0) empty >> writeVar var new

takeOut :: [Var] -> Tx ()
takeOut = foldr (\var others -> takeOne var <|> others) empty
  where takeOne var = readVar var >>= \old -> when (old == 0) empty >> writeVar var 0

inParallel :: [IO ()] -> IO ()
inParallel actions = do
  done <- newEmptyMVar
  forM_ actions $ \action -> forkFinally action (putMVar done)
  replicateM_ (length actions) (takeMVar done >>= either throwIO return)

-- | Random numbers of a thread (xorshift).
rolls :: Int -> Int -> [Int]
rolls seed i = map (fromIntegral . (`shiftR` 20)) $ drop 8 $ iterate step $ fromIntegral (seed * 7919 + i * 104729 + 1)
  where step :: Word64 -> Word64
        step = mix (`shiftL` 17) . mix (`shiftR` 7) . mix (`shiftL` 13)
        mix shifted x = x `xor` shifted x

-- * Programs that run step by step, so that each has one run

-- | The first two are correct. In each of the others "p0" makes a mistake, and "p1" meets it.
scripts :: [(String, Order -> IO Recording)]
scripts =
  [ ("or-else", orElseSlots), ("part-again", partAgain)
  , ("split", split), ("early-read", earlyRead), ("unsafe-read", unsafeRead), ("nested", nested)
  ]

script :: Order -> [Var] -> (Thread -> Thread -> IO ()) -> IO Recording
script order vars program = record order 2 vars $ \threads -> program (head threads) (last threads)

orElseSlots :: Order -> IO Recording
orElseSlots order = do
  vars <- newVars "s" [0, 7]
  script order vars $ \p0 p1 -> do
    transact p0 $ takeOut vars
    transact p1 $ fill vars 8

-- | STM runs the body of a @catchSTM@ again, and not the whole transaction, if another thread changed what it read.
partAgain :: Order -> IO Recording
partAgain order = do
  account <- newVar "a0" 100
  first <- newIORef True
  script order [account] $ \p0 p1 -> transact p0 $
    (deposit account 5 >> firstTime first (transact p1 $ deposit account 10)) `catchTx` \Overdrawn -> return ()

-- | A transfer in two @atomically@ blocks, recorded as one transaction. An audit comes between the two.
split :: Order -> IO Recording
split order = do
  from <- newVar "a0" 100
  to <- newVar "a1" 100
  script order [from, to] $ \p0 p1 -> do
    (_, half) <- perform p0 $ withdraw from 10
    transact p1 $ mapM_ readVar [from, to]
    (drawn, rest) <- perform p0 $ deposit to 10 >> drawTicket p0
    keep p0 drawn (half ++ rest)

-- | A transaction adds to what @readTVarIO@ read before it.
earlyRead :: Order -> IO Recording
earlyRead order = do
  account <- newVar "a0" 100
  script order [account] $ \p0 p1 -> do
    early <- readVarIO account
    transact p1 $ deposit account 10
    transact p0 $ note early >> writeVar account (valueOf early + 5)

-- | Two are on call, and each may leave if the other stays. "p0" looks by @unsafeIOToSTM (readTVarIO ..)@, so STM does
-- not check at the commit what it saw.
unsafeRead :: Order -> IO Recording
unsafeRead order = do
  mine <- newVar "a0" 1
  yours <- newVar "a1" 1
  let leave place seen = when (sum seen == 2) $ writeVar place 0
  script order [mine, yours] $ \p0 p1 -> transact p0 $ do
    looks <- unsafeIO $ mapM readVarIO [mine, yours]
    mapM_ note looks
    unsafeIO $ onAnotherThread $ transact p1 $ mapM readVar [mine, yours] >>= leave yours
    leave mine (map valueOf looks)

-- | A transaction counts itself by another that @unsafeIOToSTM@ runs inside it. STM does not take that back, so it is
-- counted twice when STM runs it twice.
nested :: Order -> IO Recording
nested order = do
  account <- newVar "a0" 100
  counter <- newVar "count" 0
  inner <- newThreads order 1
  first <- newIORef True
  script order [account, counter] $ \p0 p1 -> transact p0 $ do
    deposit account 5
    (_, counted) <- unsafeIO $ onAnotherThread $ perform (head inner) $ deposit counter 1
    mapM_ note counted
    firstTime first $ transact p1 $ deposit account 10

-- | Lets another thread commit inside the first attempt, which then can not commit.
firstTime :: IORef Bool -> IO () -> Tx ()
firstTime first action = unsafeIO $ readIORef first >>= \isFirst -> when isFirst $ do
  writeIORef first False
  onAnotherThread action

valueOf :: Call -> Int
valueOf (Read _ seen) = value seen
valueOf (Write _ new _) = new

onAnotherThread :: IO a -> IO a
onAnotherThread action = do
  result <- newEmptyMVar
  _ <- forkFinally action (putMVar result)
  takeMVar result >>= either throwIO return
