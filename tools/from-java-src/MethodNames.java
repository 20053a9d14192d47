import java.util.ArrayList;
import java.util.HashMap;
import java.util.HashSet;
import java.util.LinkedHashMap;
import java.util.LinkedHashSet;
import java.util.List;
import java.util.Map;
import java.util.Set;
import java.util.TreeMap;
import javax.lang.model.element.Element;
import javax.lang.model.element.ElementKind;
import javax.lang.model.element.ExecutableElement;
import javax.lang.model.element.Modifier;
import javax.lang.model.element.TypeElement;
import javax.lang.model.element.VariableElement;
import javax.lang.model.type.ArrayType;
import javax.lang.model.type.DeclaredType;
import javax.lang.model.type.TypeKind;
import javax.lang.model.type.TypeMirror;
import javax.lang.model.util.ElementFilter;

/** One name for all methods that override one another, and no name twice among related classes. */
final class MethodNames {
    private static final Set<String> AVOIDED = Set.of("wait", "notify", "notifyAll", "getClass", "finalize", "clone",
        "yield", "record", "var", "sealed",
        "permits", "instanceof", "outer");
    private final Sources sources;
    private final Map<Element, Element> above = new HashMap<>(); // union-find over methods, and over classes
    private final Map<Element, String> names = new HashMap<>(); // of the group's representative
    private final Map<ExecutableElement, Integer> constructors = new HashMap<>();
    private final Map<String, Set<Element>> taken = new HashMap<>(); // the classes that have a method of a name
    private final Map<Element, Set<Element>> below = new HashMap<>();
    private final Map<Element, Integer> counts = new HashMap<>(); // how many methods a group has
    private final Map<Element, Set<Element>> holders = new HashMap<>(); // of each group
    private final Map<String, Element> plain = new HashMap<>();
    private final Set<String> ofObject = new HashSet<>();

    MethodNames(Sources sources) {
        this.sources = sources;
        for (TypeElement one : sources.classes) {
            join(one);
        }
        Map<Integer, Set<Element>> order = new TreeMap<>();
        for (TypeElement one : sources.classes) {
            boolean library = sources.isLibrary(sources.unitOf.get(one));
            int count = 0;
            for (ExecutableElement member : ElementFilter.constructorsIn(one.getEnclosedElements())) {
                constructors.put(member, ++count);
            }
            for (ExecutableElement member : ElementFilter.methodsIn(one.getEnclosedElements())) {
                Element group = find(member);
                counts.merge(group, 1, Integer::sum);
                holders.computeIfAbsent(group, key -> new HashSet<>()).addAll(below.get(one));
                boolean fromObject = group.getEnclosingElement().toString().equals("java.lang.Object");
                order.computeIfAbsent(fromObject ? 0 : library ? 2 : 1, rank -> new LinkedHashSet<>()).add(group);
            }
        }
        order.values().forEach(groups -> groups.forEach(this::give));
    }

    private Element find(Element one) {
        Element up = above.getOrDefault(one, one);
        return up.equals(one) ? one : find(up);
    }

    /** Joins two groups; a method of Object, or else the first, stands for both. */
    private void union(Element one, Element other) {
        Element first = find(one), second = find(other);
        if (!first.equals(second)) {
            boolean swap = second.getEnclosingElement().toString().equals("java.lang.Object");
            above.put(swap ? first : second, swap ? second : first);
        }
    }

    private Set<TypeElement> allAbove(TypeElement one, Set<TypeElement> found) {
        if (found.add(one)) {
            for (TypeMirror up : sources.types.directSupertypes(one.asType())) {
                allAbove((TypeElement) ((DeclaredType) up).asElement(), found);
            }
        }
        return found;
    }

    private void join(TypeElement one) {
        Map<String, List<ExecutableElement>> members = new LinkedHashMap<>();
        for (TypeElement up : allAbove(one, new LinkedHashSet<>())) {
            below.computeIfAbsent(up, key -> new HashSet<>()).add(one);
            for (ExecutableElement method : ElementFilter.methodsIn(up.getEnclosedElements())) {
                if (!method.getModifiers().contains(Modifier.STATIC)) {
                    members.computeIfAbsent(method.getSimpleName().toString(), name -> new ArrayList<>()).add(method);
                }
            }
        }
        for (List<ExecutableElement> same : members.values()) {
            for (ExecutableElement lower : same) {
                for (ExecutableElement upper : same) {
                    if (lower != upper && sources.elements.overrides(lower, upper, one)) {
                        union(upper, lower);
                    }
                }
            }
        }
    }

    private static String capital(String word) {
        return Character.toUpperCase(word.charAt(0)) + word.substring(1);
    }

    private static String simple(TypeMirror type) {
        if (type.getKind() == TypeKind.ARRAY) {
            return simple(((ArrayType) type).getComponentType()) + "s";
        }
        if (type.getKind() == TypeKind.DECLARED) {
            return ((DeclaredType) type).asElement().getSimpleName().toString();
        }
        return capital(type.toString().replaceAll("\\W", ""));
    }

    private static String suffix(ExecutableElement method) {
        StringBuilder text = new StringBuilder();
        for (VariableElement one : method.getParameters()) {
            text.append(simple(one.asType()));
        }
        return method.getParameters().isEmpty() ? "None" : text.toString();
    }

    /** The signature, where it has a type whose uses a shared slot would join. */
    private String shared(ExecutableElement method) {
        StringBuilder text = new StringBuilder(method.getSimpleName()).append('(');
        boolean joins = false;
        List<TypeMirror> all = new ArrayList<>(List.of(method.getReturnType()));
        method.getParameters().forEach(one -> all.add(one.asType()));
        for (TypeMirror type : all) {
            String erased = sources.types.erasure(type).toString();
            joins |= !type.getKind().isPrimitive() && type.getKind() != TypeKind.VOID
                && !erased.equals("java.lang.String");
            text.append(erased).append(',');
        }
        return joins ? text.toString() : null;
    }

    private void give(Element group) {
        ExecutableElement method = (ExecutableElement) group;
        TypeElement holder = (TypeElement) method.getEnclosingElement();
        Set<Element> touched = holders.get(group);
        String base = method.getSimpleName().toString();
        List<String> tries = new ArrayList<>();
        boolean fromObject = holder.toString().equals("java.lang.Object");
        if (fromObject || !AVOIDED.contains(base)) {
            tries.add(base);
        }
        tries.add(base + suffix(method));
        tries.add(base + holder.getSimpleName());
        for (int k = 2; k < 100; k++) {
            tries.add(base + k);
        }
        String signature = method.getModifiers().contains(Modifier.STATIC) || fromObject ? null : shared(method);
        if (signature != null && plain.containsKey(signature)) {
            tries.add(0, base + capital(holder.getSimpleName().toString()));
        }
        for (String name : tries) {
            Set<Element> there = taken.computeIfAbsent(name, key -> new HashSet<>());
            if (fromObject || !ofObject.contains(name) && java.util.Collections.disjoint(there, touched)) {
                there.addAll(touched);
                ofObject.addAll(fromObject ? Set.of(name) : Set.of());
                names.put(group, name);
                if (signature != null) {
                    plain.putIfAbsent(signature, group);
                }
                return;
            }
        }
    }

    /** The name of a method, or of a constructor as an instance method. */
    String of(ExecutableElement method) {
        if (method.getKind() == ElementKind.CONSTRUCTOR) {
            int count = constructors.getOrDefault(method, 1);
            return count == 1 ? "" : "" + count;
        }
        return names.getOrDefault(find(method), method.getSimpleName().toString());
    }

    /** Whether an interface gives the one body that a method has anywhere: it can be written once,
        with the object as an argument. */
    boolean isOnlyDefault(ExecutableElement method) {
        boolean isHidden = method.getEnclosingElement().getKind().isInterface()
            && method.getModifiers().contains(Modifier.PRIVATE);
        return (method.isDefault() || isHidden) && counts.getOrDefault(find(method), 0) == 1;
    }

    /** Whether two methods are one as far as overriding goes. */
    boolean same(ExecutableElement one, ExecutableElement other) {
        return find(one).equals(find(other));
    }
}
