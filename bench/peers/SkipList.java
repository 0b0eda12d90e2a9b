import com.sun.management.OperatingSystemMXBean;
import java.lang.management.ManagementFactory;
import java.util.ArrayList;
import java.util.List;
import java.util.concurrent.ConcurrentSkipListMap;
import java.util.concurrent.atomic.AtomicBoolean;
import java.util.function.LongUnaryOperator;

/**
 * Java's ConcurrentSkipListMap: the cells of peer.hpp, on the same keys. Its scans, and so its copies, may see some of the
 * writes beside them and not others. Each cell but `memory` runs on other maps first, until the code is compiled.
 */
public final class SkipList {
    private static final String NAME = "Java";
    private static final OperatingSystemMXBean SYSTEM =
            (OperatingSystemMXBean) ManagementFactory.getOperatingSystemMXBean();

    /** How many calls stand between two looks at the clock. */
    private static final int BATCH = 64;

    private final ConcurrentSkipListMap<Long, Long> map = new ConcurrentSkipListMap<>();

    /** The time from its making on, by the wall and of all threads together, the collector's too. */
    private static final class Watch {
        final long processor = SYSTEM.getProcessCpuTime();
        final long wall = System.nanoTime();

        void tell(String cell, long calls) {
            long taken = System.nanoTime() - wall;
            long used = SYSTEM.getProcessCpuTime() - processor;
            System.out.println(NAME + " " + cell + " " + calls + " " + taken + " " + used);
        }
    }

    /** The numbers of one thread in one phase: the same for each map. */
    private static final class Draws {
        private long state;

        Draws(long phase, long thread) {
            state = spread(phase * 64 + thread + 1);
        }

        long next() {
            state += 0x9e3779b97f4a7c15L;
            return spread(state);
        }
    }

    private record Mix(long gets, long keys, int threads, long millis, long most) {}

    private static final class Tally {
        long calls, found, fresh, taken;

        void add(Tally other) {
            calls += other.calls;
            found += other.found;
            fresh += other.fresh;
            taken += other.taken;
        }
    }

    private static void fail(String why) {
        System.err.println(why);
        System.exit(1);
    }

    /** A bijection of 64 bits: different numbers have different keys, in an order as if by lot. */
    private static long spread(long number) {
        number = (number ^ (number >>> 30)) * 0xbf58476d1ce4e5b9L;
        number = (number ^ (number >>> 27)) * 0x94d049bb133111ebL;
        return number ^ (number >>> 31);
    }

    private static long keyOf(long number, long keys) {
        return ((number >>> 32) * keys) >>> 32;
    }

    private static long shareOf(long number, long whole) {
        return ((number & 0xffffffffL) * whole) >>> 32;
    }

    private void oneCall(Mix mix, long number, Tally tally) {
        long key = keyOf(number, mix.keys);
        long share = shareOf(number, 200);
        if (share < 2 * mix.gets) {
            if (map.get(key) != null) tally.found++;
        } else if (share % 2 == 0) {
            if (map.put(key, number >>> 1) == null) tally.fresh++;
        } else {
            if (map.remove(key) != null) tally.taken++;
        }
    }

    /** What one thread does: calls until the time is over, or so many. */
    private Tally work(Mix mix, long phase, long thread, long end) {
        Draws draws = new Draws(phase, thread);
        Tally tally = new Tally();
        while (tally.calls < mix.most && System.nanoTime() < end) {
            for (int turn = 0; turn < BATCH; turn++) oneCall(mix, draws.next(), tally);
            tally.calls += BATCH;
        }
        return tally;
    }

    private static void joinAll(List<Thread> threads) {
        for (Thread thread : threads) {
            try {
                thread.join();
            } catch (InterruptedException e) {
                fail("interrupted");
            }
        }
    }

    private Tally allWork(Mix mix, long phase) {
        long end = System.nanoTime() + mix.millis * 1_000_000;
        Tally[] tallies = new Tally[mix.threads];
        List<Thread> threads = new ArrayList<>();
        for (int thread = 0; thread < mix.threads; thread++) {
            int place = thread;
            threads.add(new Thread(() -> tallies[place] = work(mix, phase, place, end)));
        }
        threads.forEach(Thread::start);
        joinAll(threads);
        Tally sum = new Tally();
        for (Tally tally : tallies) sum.add(tally);
        return sum;
    }

    private long halfFill(long keys) {
        Draws draws = new Draws(0, 0);
        long pairs = 0;
        while (pairs < keys / 2) {
            if (map.put(keyOf(draws.next(), keys), 0L) == null) pairs++;
        }
        return pairs;
    }

    /** What the compiler is to have seen before a mix is timed. */
    private static void warmUp(Mix mix, long millis) {
        SkipList other = new SkipList();
        other.halfFill(mix.keys);
        other.allWork(new Mix(mix.gets, mix.keys, mix.threads, millis, mix.most), 3);
        System.gc();
    }

    /** mix GETS KEYS THREADS WARM MILLIS MOST */
    private static void mix(Mix mix, long warm, String cell) {
        warmUp(mix, 400);
        SkipList list = new SkipList();
        long pairs = list.halfFill(mix.keys);
        Tally before = list.allWork(new Mix(mix.gets, mix.keys, mix.threads, warm, mix.most), 1);
        Watch watch = new Watch();
        Tally tally = list.allWork(mix, 2);
        watch.tell(cell, tally.calls);
        long left = 0;
        for (long key = 0; key < mix.keys; key++) {
            if (list.map.get(key) != null) left++;
        }
        if (left != pairs + before.fresh + tally.fresh - before.taken - tally.taken) fail("keys are lost");
    }

    private static SkipList filled(long pairs, LongUnaryOperator key) {
        SkipList list = new SkipList();
        for (long number = 0; number < pairs; number++) list.map.put(key.applyAsLong(number), number);
        return list;
    }

    /** rising KEYS */
    private static void rising(long keys, String cell) {
        for (int turn = 0; turn < 3; turn++) filled(Math.min(keys, 100_000), LongUnaryOperator.identity());
        System.gc();
        Watch watch = new Watch();
        SkipList list = filled(keys, LongUnaryOperator.identity());
        watch.tell(cell, keys);
        if (list.map.size() != keys) fail("keys are lost");
    }

    private long scan() {
        long pairs = 0;
        for (var pair : map.entrySet()) {
            if (pair.getValue() != -1) pairs++;
        }
        return pairs;
    }

    private static long scanUntil(SkipList list, long pairs, long millis) {
        long end = System.nanoTime() + millis * 1_000_000;
        long met = 0;
        do {
            long seen = list.scan();
            if (seen != pairs) fail("a scan lacks pairs");
            met += seen;
        } while (System.nanoTime() < end);
        return met;
    }

    private long writeUntil(long pairs, long thread, AtomicBoolean ended) {
        Draws draws = new Draws(1, thread);
        long count = 0;
        while (!ended.get()) {
            map.put(spread(keyOf(draws.next(), pairs)), count);
            count++;
        }
        return count;
    }

    private static List<Thread> startWriters(SkipList list, long pairs, long[] written, AtomicBoolean ended) {
        List<Thread> threads = new ArrayList<>();
        for (int thread = 0; thread < written.length; thread++) {
            int place = thread;
            threads.add(new Thread(() -> written[place] = list.writeUntil(pairs, place, ended)));
        }
        threads.forEach(Thread::start);
        return threads;
    }

    /** scan PAIRS WRITERS MILLIS */
    private static void scans(long pairs, int writers, long millis, String cell) {
        SkipList list = filled(pairs, SkipList::spread);
        AtomicBoolean warm = new AtomicBoolean();
        List<Thread> first = startWriters(list, pairs, new long[writers], warm);
        scanUntil(list, pairs, 400);
        warm.set(true);
        joinAll(first);
        System.gc();
        AtomicBoolean ended = new AtomicBoolean();
        long[] written = new long[writers];
        Watch watch = new Watch();
        List<Thread> threads = startWriters(list, pairs, written, ended);
        watch.tell(cell, scanUntil(list, pairs, millis));
        ended.set(true);
        joinAll(threads);
        long writes = 0;
        for (long count : written) writes += count;
        watch.tell("beside-" + cell, writes);
    }

    private static long copyUntil(SkipList list, long pairs, long millis) {
        long end = System.nanoTime() + millis * 1_000_000;
        long copies = 0;
        do {
            ConcurrentSkipListMap<Long, Long> copy = new ConcurrentSkipListMap<>(list.map);
            if (!copy.lastKey().equals(list.map.lastKey())) fail("a copy lacks pairs");
            copies++;
        } while (System.nanoTime() < end);
        return copies;
    }

    /** copy PAIRS MILLIS */
    private static void copies(long pairs, long millis, String cell) {
        SkipList list = filled(pairs, SkipList::spread);
        copyUntil(list, pairs, 400);
        System.gc();
        Watch watch = new Watch();
        watch.tell(cell, copyUntil(list, pairs, millis));
    }

    private static long heapBytes() {
        for (int turn = 0; turn < 3; turn++) System.gc();
        return ManagementFactory.getMemoryMXBean().getHeapMemoryUsage().getUsed();
    }

    /** memory PAIRS: of the heap in use behind a collection, not of the process. */
    private static void memory(long pairs, String cell) {
        long before = heapBytes();
        SkipList list = filled(pairs, SkipList::spread);
        long after = heapBytes();
        System.out.println(NAME + " " + cell + " " + pairs + " " + (after - before) + " 0");
        if (list.map.size() != pairs) fail("keys are lost");
    }

    public static void main(String[] words) {
        String cell = String.join("/", words);
        long[] n = new long[Math.max(words.length - 1, 0)];
        for (int place = 0; place < n.length; place++) n[place] = Long.parseLong(words[place + 1]);
        switch ((words.length > 0 ? words[0] : "") + n.length) {
            case "mix6" -> mix(new Mix(n[0], n[1], (int) n[2], n[4], n[5]), n[3], cell);
            case "rising1" -> rising(n[0], cell);
            case "scan3" -> scans(n[0], (int) n[1], n[2], cell);
            case "copy2" -> copies(n[0], n[1], cell);
            case "memory1" -> memory(n[0], cell);
            default -> fail("which cell?");
        }
    }
}
