/** A program that logs its own events. `ready` publishes `price`; main reads `count` without the lock, which is a race. */
final class Logged {
    private static final Object door = new Object();
    private static long count, price;
    private static volatile boolean ready;

    private static void sell() {
        while (!ShbLog.load("vr(ready)", () -> ready))
            pause();
        long paid = ShbLog.load("r(price)", () -> price);
        synchronized (door) {
            ShbLog.event("acq(door)");
            ShbLog.store("w(count)", () -> count += paid);
            ShbLog.event("rel(door)");
        }
    }

    private static void pause() {
        try {
            Thread.sleep(1);
        } catch (InterruptedException fault) {
            throw new IllegalStateException(fault);
        }
    }

    public static void main(String[] words) throws InterruptedException {
        Thread seller = new Thread(Logged::sell, "seller");
        ShbLog.event("fork(seller)");
        seller.start();
        ShbLog.store("w(price)", () -> price = 7);
        ShbLog.store("vw(ready)", () -> ready = true);
        ShbLog.load("r(count)", () -> count);          // the lock isn't held here
        seller.join();
        ShbLog.event("join(seller)");
    }
}
