// Three ways to wait for ever, with threads. A promise is a CompletableFuture. The main thread asks for deadlocked
// threads once a second, so in each case it is a thread that runs on.
import java.lang.management.ManagementFactory;
import java.util.Arrays;
import java.util.concurrent.CompletableFuture;

public class Peers {
    /** Two tasks that wait for each other's promise. */
    static void cycle() {
        var p = new CompletableFuture<Integer>();
        var q = new CompletableFuture<Integer>();
        new Thread(() -> p.complete(q.join())).start();
        new Thread(() -> q.complete(p.join())).start();
    }

    /** A promise that nobody sets: its owner ends without. */
    static void unset() {
        var p = new CompletableFuture<Integer>();
        new Thread(() -> { var mine = p; }).start();
        new Thread(() -> System.out.println(p.join())).start();
    }

    /** A task that joins itself. */
    static void itself() {
        new Thread(() -> {
            try {
                Thread.currentThread().join();
            } catch (InterruptedException ended) {
            }
        }).start();
    }

    public static void main(String[] words) throws InterruptedException {
        switch (words[0]) {
            case "cycle" -> cycle();
            case "unset" -> unset();
            default -> itself();
        }
        var threads = ManagementFactory.getThreadMXBean();
        for (;;) {
            Thread.sleep(1000);
            System.out.println("findDeadlockedThreads: " + Arrays.toString(threads.findDeadlockedThreads()));
        }
    }
}
