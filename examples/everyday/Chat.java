import java.util.ArrayList;
import java.util.HashMap;
import java.util.HashSet;
import java.util.List;
import java.util.Map;
import java.util.Set;

/** Rooms and users, who hear what is said: maps of sets, nested classes that know one another. */
public class Chat {
    private class User {
        final String name;
        final List<String> heard = new ArrayList<>();
        final Set<Room> rooms = new HashSet<>();

        User(String name) {
            this.name = name;
            users.put(name, this);
        }

        void join(Room room) {
            if (rooms.add(room)) {
                room.members.add(this);
                room.say(null, name + " joins");
            }
        }

        void leave(Room room) {
            if (!rooms.remove(room)) {
                System.out.println(name + " is not in " + room.title);
                return;
            }
            room.members.remove(this);
            room.say(null, name + " leaves");
        }
    }

    private class Room {
        final String title;
        final List<User> members = new ArrayList<>();

        Room(String title) {
            this.title = title;
        }

        void say(User from, String text) {
            total++;
            for (User user : members) {
                if (user != from) {
                    user.heard.add(title + (from == null ? ": " : "/" + from.name + ": ") + text);
                }
            }
        }
    }

    private final Map<String, User> users = new HashMap<>();
    private int total;

    void run(String[] extra) {
        Room kaba = new Room("kaba"), java = new Room("java");
        User ann = new User("ann"), bob = new User("bob");
        ann.join(kaba);
        bob.join(kaba);
        bob.join(kaba);
        bob.join(java);
        java.say(bob, "anyone?");
        kaba.say(ann, "hello");
        for (String name : extra) {
            User more = this.new User(name);
            more.join(java);
        }
        bob.leave(java);
        bob.leave(java);
        List<String> names = new ArrayList<>(users.keySet());
        names.sort((a, b) -> b.compareTo(a));
        for (String name : names) {
            User user = users.get(name);
            System.out.println(name + " in " + user.rooms.size() + " heard " + user.heard.size());
            for (String line : user.heard) System.out.println("  " + line);
        }
        System.out.println(total);
    }

    public static void main(String[] args) {
        new Chat().run(args);
    }
}
