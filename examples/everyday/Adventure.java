import java.util.*;

public class Adventure {
    enum Direction {
        NORTH, EAST, SOUTH, WEST;

        Direction opposite() {
            return values()[(ordinal() + 2) % values().length];
        }

        static Direction parse(String s) {
            for (Direction d : values()) {
                if (d.name().toLowerCase().startsWith(s.toLowerCase())) {
                    return d;
                }
            }
            return null;
        }
    }

    static class Item {
        final String name, description;
        final boolean portable;

        Item(String name, String description, boolean portable) {
            this.name = name;
            this.description = description;
            this.portable = portable;
        }
    }

    static class Room {
        final String name;
        String description;
        final Map<Direction, Room> exits = new EnumMap<>(Direction.class);
        final List<Item> items = new ArrayList<>();
        boolean visited;

        Room(String name, String description) {
            this.name = name;
            this.description = description;
        }

        void connect(Direction d, Room other) {
            exits.put(d, other);
            other.exits.put(d.opposite(), this);
        }

        String look() {
            StringBuilder sb = new StringBuilder();
            sb.append("== ").append(name).append(" ==\n").append(description);
            if (!items.isEmpty()) {
                sb.append("\nYou see:");
                for (Item i : items) sb.append(" ").append(i.name);
            }
            sb.append("\nExits: ");
            StringJoiner joiner = new StringJoiner(", ", "[", "]");
            for (Direction d : exits.keySet()) {
                joiner.add(d.toString());
            }
            return sb.append(joiner).toString();
        }
    }

    interface Command {
        void execute(String argument);
    }

    private Room current;
    private final Map<String, Item> inventory = new TreeMap<>();
    private final Map<String, Command> commands = new HashMap<>();
    private int moves = 0;
    private boolean running = true;

    Adventure() {
        Room hall = new Room("Hall", "A dusty hall.");
        Room kitchen = new Room("Kitchen", "It smells of old soup.");
        Room cellar = new Room("Cellar", "Dark and damp.");
        hall.connect(Direction.EAST, kitchen);
        kitchen.connect(Direction.SOUTH, cellar);
        hall.items.add(new Item("lamp", "A brass lamp.", true));
        hall.items.add(new Item("statue", "A heavy statue.", false));
        cellar.items.add(new Item("gold", "A bar of gold!", true));
        current = hall;

        commands.put("go", this::go);
        commands.put("take", this::take);
        commands.put("drop", arg -> {
            Item item = inventory.remove(arg);
            if (item == null) {
                say("You don't have that.");
            } else {
                current.items.add(item);
                say("Dropped " + item.name + ".");
            }
        });
        commands.put("look", arg -> say(current.look()));
        commands.put("inventory", arg -> say(inventory.isEmpty() ? "You carry nothing." : "You carry " + inventory.keySet()));
        commands.put("quit", arg -> running = false);
    }

    private static void say(String text) {
        System.out.println(text);
    }

    private void go(String arg) {
        Direction d = arg.isEmpty() ? null : Direction.parse(arg);
        if (d == null) {
            say("Go where?");
            return;
        }
        Room next = current.exits.get(d);
        if (next == null) {
            say("You can't go " + d.name().toLowerCase() + ".");
            return;
        }
        if (next.name.equals("Cellar") && !inventory.containsKey("lamp")) {
            say("It is too dark down there.");
            return;
        }
        current = next;
        moves++;
        if (!current.visited) {
            say(current.look());
            current.visited = true;
        } else {
            say("You are in the " + current.name + ".");
        }
    }

    private void take(String arg) {
        for (Iterator<Item> it = current.items.iterator(); it.hasNext();) {
            Item item = it.next();
            if (item.name.equalsIgnoreCase(arg)) {
                if (!item.portable) {
                    say("The " + item.name + " won't move.");
                    return;
                }
                it.remove();
                inventory.put(item.name, item);
                say("Taken: " + item.description);
                return;
            }
        }
        say("There is no " + arg + " here.");
    }

    void run(String... script) {
        for (String line : script) {
            System.out.println("> " + line);
            String[] parts = line.trim().split("\\s+", 2);
            String verb = parts[0], arg = parts.length > 1 ? parts[1] : "";
            Command command = commands.get(verb);
            if (command != null) command.execute(arg);
            else say("I don't know how to " + verb + ".");
            if (!running) break;
        }
        System.out.printf("Game over after %d move%s, %d item(s).%n", moves, moves == 1 ? "" : "s", inventory.size());
    }

    public static void main(String[] args) {
        new Adventure().run("look", "take statue", "go east", "go s", "go west", "take lamp", "dance", "go e",
                "go south", "take  GOLD", "take gold", "inventory", "drop lamp", "look", "go up", "quit", "look");
    }
}
