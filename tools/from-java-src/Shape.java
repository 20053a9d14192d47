import java.util.ArrayList;
import java.util.HashMap;
import java.util.HashSet;
import java.util.LinkedHashSet;
import java.util.List;
import java.util.Map;
import java.util.Set;

/**
 * Which classes are printed, in which order and as what. An interface of the library that one class alone stands for is
 * that class; another is an abstract class where no class below it needs two.
 */
final class Shape {
    /** A class of the text: the objects' part, the static one, or both in one. */
    record Part(Copy copy, String name, boolean isStatic, boolean both) {
    }

    private final Program program;
    private final Map<Copy, Copy> standsFor = new HashMap<>();
    private final Set<Copy> asClasses = new LinkedHashSet<>();
    private final Set<Copy> printed = new LinkedHashSet<>();
    private final Map<Copy, String> staticNames = new HashMap<>();

    Shape(Program program) {
        this.program = program;
        findPrinted();
        replace();
        findClasses();
        for (Copy one : program.world.copies) {
            boolean split = hasStatics(one) && printed.contains(one)
                && (one.created || hasInstances(one) || isAbove(one));
            staticNames.put(one, split ? program.world.unique(one.name + "Statics") : one.name);
        }
    }

    private boolean isAbove(Copy one) {
        return program.world.copies.stream().anyMatch(other -> other.superCopy == one && printed.contains(other));
    }

    private static boolean hasStatics(Copy one) {
        return !one.staticFields.isEmpty() || !one.staticMethods.isEmpty();
    }

    private static boolean hasInstances(Copy one) {
        return !one.fields.isEmpty() || !one.methods.isEmpty() || one.holdsOuter;
    }

    // ---- which are printed

    private boolean isRaw(Copy one) {
        return one.element != null && one.env.isEmpty() && !program.world.variablesOf(one.element).isEmpty();
    }

    private void findPrinted() {
        for (Copy one : program.world.copies) {
            boolean own = !one.isLibrary && one.element != null && !isRaw(one);
            boolean asked = one.isInterface() ? one.used : one.created || one.used
                && (one.element == null || !hasOnlyStatics(one));
            if (one.tree != null && (own && (one.isInterface() || hasInstances(one) || one.created
                || !hasStatics(one)) || asked)) {
                print(one);
            }
        }
        mentioned();
    }

    private boolean hasOnlyStatics(Copy one) {
        return hasStatics(one) && !hasInstances(one) && !one.created;
    }

    private void print(Copy one) {
        if (printed.add(one) && one.superCopy != null) {
            print(one.superCopy);
        }
    }

    /** Classes that stand in a type somewhere. */
    private void mentioned() {
        Set<Copy> found = new HashSet<>();
        for (Copy one : program.world.copies) {
            List<String> texts = new ArrayList<>();
            one.fields.forEach(field -> texts.add(field.type()));
            one.staticFields.forEach(field -> texts.add(field.type()));
            one.captured.values().forEach(type -> texts.add(type.text()));
            List<Copy.Method> all = new ArrayList<>(one.methods);
            all.addAll(one.staticMethods);
            for (Copy.Method method : all) {
                texts.add(method.result);
                texts.addAll(method.params);
                if (method.body != null) {
                    collect(method.body, texts);
                }
            }
            for (String text : texts) {
                for (int at = text.indexOf('\u0001'); at >= 0; at = text.indexOf('\u0001', at + 1)) {
                    found.add(program.world.copies.get(Integer.parseInt(text.substring(at + 1,
                        text.indexOf('\u0002', at)))));
                }
            }
            if (one.holdsOuter) {
                found.add(one.outer);
            }
        }
        found.stream().filter(one -> one.tree != null).forEach(this::print);
    }

    private static void collect(List<St> list, List<String> texts) {
        for (St one : list) {
            if (one instanceof St.Let let) {
                texts.add(let.type);
                texts.add("" + let.value);
            } else if (one instanceof St.Set_ set) {
                texts.add(set.value);
                texts.add(set.target);
            } else if (one instanceof St.Do call) {
                texts.add(call.text);
            } else if (one instanceof St.Return back) {
                texts.add("" + back.value);
            } else if (one instanceof St.If choice) {
                texts.add(choice.test.text);
                collect(choice.then, texts);
                collect(choice.other, texts);
            } else if (one instanceof St.Block block) {
                collect(block.body, texts);
            } else if (one instanceof St.Loop loop) {
                texts.add(loop.test == null ? "" : loop.test.text);
                collect(loop.first == null ? List.of() : List.of(loop.first), texts);
                collect(loop.next == null ? List.of() : List.of(loop.next), texts);
                collect(loop.body, texts);
            }
        }
    }

    // ---- interfaces of the library

    private List<Copy> classesOf(Copy face) {
        List<Copy> all = new ArrayList<>();
        for (Copy one : program.world.copies) {
            if (printed.contains(one) && one.created && !one.isInterface() && one.isBelow(face)) {
                all.add(one);
            }
        }
        return all;
    }

    /** The topmost class at or above one that is below an interface. */
    private static Copy topmost(Copy one, Copy face) {
        return one.superCopy != null && one.superCopy.isBelow(face) ? topmost(one.superCopy, face) : one;
    }

    private void replace() {
        for (Copy one : printed) {
            Set<Copy> tops = new HashSet<>();
            if (one.isInterface() && one.isLibrary) {
                classesOf(one).forEach(made -> tops.add(topmost(made, one)));
            }
            if (tops.size() == 1) {
                standsFor.put(one, tops.iterator().next());
            }
        }
        boolean changed = true;
        while (changed) {
            changed = standsFor.entrySet().removeIf(entry -> printed.stream().anyMatch(other -> other != entry.getKey()
                && other.isBelow(entry.getKey()) && !standsFor.getOrDefault(other, other).isBelow(entry.getValue())));
        }
        standsFor.forEach(Shape::giveHeads);
    }

    /** A class that stands for an interface declares what is called through it, where it does not have it already. */
    private static void giveHeads(Copy face, Copy top) {
        for (Copy.Method head : face.methods) {
            if (head.body == null && !has(top, head.name)) {
                top.methods.add(head);
            }
        }
    }

    private static boolean has(Copy one, String name) {
        return one != null && (one.methods.stream().anyMatch(method -> method.name.equals(name)) || has(one.superCopy, name));
    }

    private void findClasses() {
        for (Copy one : printed) {
            if (one.isInterface() && one.isLibrary && !standsFor.containsKey(one)) {
                asClasses.add(one);
            }
        }
        boolean changed = true;
        while (changed) {
            changed = asClasses.removeIf(face -> {
                List<Copy> above = shownInterfaces(face, new ArrayList<>());
                boolean fits = above.isEmpty() || above.size() == 1 && asClasses.contains(above.get(0));
                for (Copy one : printed) {
                    List<Copy> its = shownInterfaces(one, new ArrayList<>());
                    if (one != face && its.contains(face)) {
                        fits &= one.isInterface() ? asClasses.contains(one) && its.size() == 1
                            : one.superCopy == null && its.size() == 1;
                    }
                }
                return !fits;
            });
        }
    }

    /** The interfaces right above a type that are printed as themselves. */
    private List<Copy> shownInterfaces(Copy one, List<Copy> found) {
        for (Copy up : one.interfaces) {
            if (printed.contains(up) && !standsFor.containsKey(up)) {
                if (!found.contains(up)) {
                    found.add(up);
                }
            } else {
                shownInterfaces(up, found);
            }
        }
        found.removeIf(face -> found.stream().anyMatch(other -> other != face && other.isBelow(face)));
        return found;
    }

    // ---- answers

    String nameOf(Copy copy) {
        return standsFor.getOrDefault(copy, copy).name;
    }

    String staticNameOf(Copy copy) {
        return staticNames.getOrDefault(copy, copy.name);
    }

    boolean isInterface(Copy copy) {
        return copy.isInterface() && !asClasses.contains(copy);
    }

    boolean isAbstract(Copy copy) {
        return asClasses.contains(copy) || copy.isAbstract()
            || copy.methods.stream().anyMatch(method -> method.body == null);
    }

    Copy superOf(Copy copy) {
        if (copy.superCopy != null) {
            return copy.superCopy;
        }
        List<Copy> above = shownInterfaces(copy, new ArrayList<>());
        return above.size() == 1 && asClasses.contains(above.get(0)) ? above.get(0) : null;
    }

    List<Copy> interfacesOf(Copy copy) {
        List<Copy> above = shownInterfaces(copy, new ArrayList<>());
        above.removeIf(asClasses::contains);
        return above;
    }

    List<Part> parts() {
        List<Part> first = new ArrayList<>(), own = new ArrayList<>(), library = new ArrayList<>();
        for (Copy one : program.world.copies) {
            List<Part> to = one.isLibrary ? library : own;
            boolean here = printed.contains(one) && !standsFor.containsKey(one);
            boolean split = here && hasStatics(one) && !staticNameOf(one).equals(one.name);
            boolean isMain = one == program.main;
            if (hasStatics(one) && (!here || split)) {
                (isMain ? first : to).add(new Part(one, staticNameOf(one), true, false));
            }
            if (here) {
                (isMain && !split ? first : to).add(new Part(one, one.name, false, hasStatics(one) && !split));
            }
        }
        first.addAll(own);
        first.addAll(library);
        return first;
    }
}
