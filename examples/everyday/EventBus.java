import java.util.*;
import java.util.concurrent.atomic.AtomicInteger;
import java.util.function.Consumer;
import java.util.function.Predicate;

public class EventBus {
    public interface Event {
        String getName();
    }

    public static abstract class BaseEvent implements Event {
        private static final AtomicInteger SEQUENCE = new AtomicInteger(100);
        protected final int id = SEQUENCE.incrementAndGet();

        @Override public String getName() { return getClass().getSimpleName() + "#" + id; }
    }

    public static class OrderPlaced extends BaseEvent {
        final String item;
        final int quantity;

        public OrderPlaced(String item, int quantity) {
            this.item = item;
            this.quantity = quantity;
        }
    }

    public static class OrderShipped extends BaseEvent {
        final OrderPlaced order;

        public OrderShipped(OrderPlaced order) { this.order = order; }
    }

    @FunctionalInterface
    interface Listener<E extends Event> {
        void handle(E event);

        default Listener<E> when(Predicate<E> condition) {
            return e -> { if (condition.test(e)) handle(e); };
        }
    }

    private final Map<String, List<Listener<Event>>> listeners = new LinkedHashMap<>();
    private final Deque<Event> queue = new ArrayDeque<>();
    private boolean dispatching;

    public void on(String type, Listener<Event> l) {
        listeners.computeIfAbsent(type, t -> new ArrayList<>()).add(l);
    }

    public void publish(Event e) {
        queue.addLast(e);
        if (dispatching) return;
        dispatching = true;
        try {
            while (!queue.isEmpty()) {
                Event next = queue.removeFirst();
                for (Listener<Event> l : listeners.getOrDefault(next.getClass().getSimpleName(), List.of())) {
                    try {
                        l.handle(next);
                    } catch (RuntimeException ex) {
                        System.out.println("listener failed for " + next.getName() + ": " + ex.getMessage());
                    }
                }
            }
        } finally {
            dispatching = false;
        }
    }

    static class Stock {
        private final Map<String, Integer> items = new HashMap<>();
        private final EventBus bus;

        Stock(EventBus bus) {
            this.bus = bus;
            items.put("apple", 5);
            items.put("pear", 2);
            bus.on("OrderPlaced", this::onOrder);
        }

        private void onOrder(Event e) {
            OrderPlaced order = (OrderPlaced) e;
            Integer left = items.get(order.item);
            if (left == null) throw new NoSuchElementException("no " + order.item);
            if (left < order.quantity) throw new IllegalStateException("only " + left + " " + order.item + "(s)");
            items.compute(order.item, (k, v) -> v - order.quantity);
            bus.publish(new OrderShipped(order));
        }
    }

    public static void main(String[] args) {
        EventBus bus = new EventBus();
        Stock stock = new Stock(bus);
        List<String> log = new LinkedList<>();
        Consumer<String> logger = log::add;
        bus.on("OrderPlaced", e -> logger.accept("placed " + e.getName()));
        Listener<Event> big = e -> System.out.println("big order " + ((OrderPlaced) e).quantity);
        bus.on("OrderPlaced", big.when(e -> ((OrderPlaced) e).quantity >= 3));
        bus.on("OrderShipped", e -> {
            OrderShipped s = (OrderShipped) e;
            logger.andThen(x -> System.out.println("log: " + x)).accept("shipped " + s.order.item + " x" + s.order.quantity);
        });
        bus.publish(new OrderPlaced("apple", 3));
        bus.publish(new OrderPlaced("pear", 4));
        bus.publish(new OrderPlaced("kiwi", 1));
        bus.publish(new OrderPlaced("apple", 2));
        System.out.println(log);
        System.out.println(new TreeMap<>(stock.items));
    }
}
