import java.io.BufferedWriter;
import java.io.FileWriter;
import java.io.IOException;
import java.io.PrintWriter;
import java.io.UncheckedIOException;
import java.util.function.Supplier;

/**
 * A logger of events for shb. A line is THREAD|OPERATION|LOCATION, and lines are in the order in which the events happened. The
 * logger's own lock isn't logged, so the analysis doesn't take it for synchronization. Threads need different names.
 */
final class ShbLog {
    private static final PrintWriter FILE = opened(System.getProperty("shb.log", "app.std"));

    private static PrintWriter opened(String path) {
        try {
            PrintWriter file = new PrintWriter(new BufferedWriter(new FileWriter(path)));
            Runtime.getRuntime().addShutdownHook(new Thread(() -> flush(file)));
            return file;
        } catch (IOException fault) {
            throw new UncheckedIOException(fault);
        }
    }

    private static synchronized void flush(PrintWriter file) {
        file.flush();
    }

    /** Logs what is a step by itself: a lock that was taken or is about to be released, a fork, a join. */
    static synchronized void event(String operation) {
        FILE.println(Thread.currentThread().getName() + "|" + operation + "|" + caller());
    }

    /** Makes a store and logs it as one step: w(X), or vw(X) if X is volatile. */
    static synchronized void store(String operation, Runnable step) {
        step.run();
        event(operation);
    }

    /** Makes a load and logs it as one step: r(X), or vr(X) if X is volatile. */
    static synchronized <T> T load(String operation, Supplier<T> step) {
        T value = step.get();
        event(operation);
        return value;
    }

    /** The file and line of the innermost call outside of this class. */
    private static String caller() {
        StackWalker walker = StackWalker.getInstance(StackWalker.Option.RETAIN_CLASS_REFERENCE);
        return walker.walk(frames -> frames.filter(it -> it.getDeclaringClass() != ShbLog.class).findFirst())
            .map(it -> it.getFileName() + ":" + it.getLineNumber()).orElse("");
    }
}
