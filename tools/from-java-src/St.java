import java.util.ArrayList;
import java.util.HashSet;
import java.util.List;
import java.util.Set;

/** A statement of the text. */
abstract class St {
    Place at;

    /** Puts the names of the locals that it may assign into a set; declarations aside. */
    void assigns(Set<String> names) {
    }

    static Set<String> assigned(List<St> list) {
        Set<String> names = new HashSet<>();
        list.forEach(one -> one.assigns(names));
        return names;
    }

    /** A local's declaration. */
    static final class Let extends St {
        final String type;
        final String name;
        final String value;

        Let(String type, String name, String value) {
            this.type = type;
            this.name = name;
            this.value = value;
        }
    }

    /** An assignment; `local` is the name where a local is assigned. */
    static final class Set_ extends St {
        final String target;
        final String value;
        final String local;

        Set_(String target, String value, String local) {
            this.target = target;
            this.value = value;
            this.local = local;
        }

        @Override
        void assigns(Set<String> names) {
            if (local != null) {
                names.add(local);
            }
        }

        String text() {
            return local != null && value.equals(local + " + 1") ? local + "++"
                : local != null && value.equals(local + " - 1") ? local + "--" : target + " = " + value;
        }
    }

    /** A call or a printing. */
    static final class Do extends St {
        final String text;

        Do(String text) {
            this.text = text;
        }
    }

    static final class If extends St {
        final Ex test;
        List<St> then;
        List<St> other;

        If(Ex test, List<St> then, List<St> other) {
            this.test = test;
            this.then = then;
            this.other = other;
        }

        @Override
        void assigns(Set<String> names) {
            then.forEach(one -> one.assigns(names));
            other.forEach(one -> one.assigns(names));
        }
    }

    /** A loop; without `first` and `next` it is a while. Jumps name it. */
    static final class Loop extends St {
        St first;
        Ex test;
        St.Set_ next;
        List<St> body = new ArrayList<>();

        @Override
        void assigns(Set<String> names) {
            body.forEach(one -> one.assigns(names));
            if (next != null) {
                next.assigns(names);
            }
        }

        boolean isEndless() {
            return test == null || test.text.equals("true");
        }
    }

    static final class Block extends St {
        List<St> body;

        Block(List<St> body) {
            this.body = body;
        }

        @Override
        void assigns(Set<String> names) {
            body.forEach(one -> one.assigns(names));
        }
    }

    static final class Return extends St {
        final String value;

        Return(String value) {
            this.value = value;
        }
    }

    static final class Jump extends St {
        final Loop loop;
        final boolean goesOn;

        Jump(Loop loop, boolean goesOn) {
            this.loop = loop;
            this.goesOn = goesOn;
        }
    }
}
