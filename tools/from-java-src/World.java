import com.sun.source.tree.ClassTree;
import com.sun.source.tree.Tree;
import java.util.ArrayList;
import java.util.HashMap;
import java.util.HashSet;
import java.util.LinkedHashMap;
import java.util.List;
import java.util.Map;
import java.util.Set;
import javax.lang.model.element.Element;
import javax.lang.model.element.ElementKind;
import javax.lang.model.element.ExecutableElement;
import javax.lang.model.element.Modifier;
import javax.lang.model.element.NestingKind;
import javax.lang.model.element.Parameterizable;
import javax.lang.model.element.TypeElement;
import javax.lang.model.element.TypeParameterElement;
import javax.lang.model.element.VariableElement;
import javax.lang.model.type.ArrayType;
import javax.lang.model.type.DeclaredType;
import javax.lang.model.type.IntersectionType;
import javax.lang.model.type.TypeKind;
import javax.lang.model.type.TypeMirror;
import javax.lang.model.type.TypeVariable;
import javax.lang.model.type.WildcardType;

/** The classes of the text, made as they are asked for, and the types of the sources as types of the text. */
final class World {
    private static final int MOST = 600;
    private static final Set<String> RESERVED = Set.of("Object", "String", "System");

    final Sources sources;
    final Obstacles obstacles;
    final MethodNames methodNames;
    final List<Copy> copies = new ArrayList<>();
    private final Map<List<Object>, Copy> known = new HashMap<>();
    private final Set<String> classNames = new HashSet<>(RESERVED);
    private final Map<List<Object>, Found> answers = new HashMap<>();
    private boolean toldMany;
    Place place; // where what is asked for stands
    Program program;
    final Apart apart;
    final Faults faults;
    final Element tag; // the variable for which a container of its own has its tag

    World(Sources sources, Obstacles obstacles, Apart apart) {
        this.sources = sources;
        this.obstacles = obstacles;
        this.apart = apart;
        tag = sources.elements.getTypeElement("java.lang.Void");
        methodNames = new MethodNames(sources);
        faults = new Faults(sources);
        classNames.addAll(sources.variableNames);
    }

    // ---- types

    /** The type of the text that a type of the sources is, with types for its variables. */
    Ty ty(TypeMirror type, Map<Element, Ty> env) {
        switch (type.getKind()) {
            case INT: return Ty.INT;
            case BOOLEAN: return Ty.BOOLEAN;
            case CHAR: return Ty.CHAR;
            case BYTE: return Ty.BYTE;
            case SHORT: return Ty.SHORT;
            case VOID: return Ty.VOID;
            case NULL: case NONE: return Ty.NULL;
            case ARRAY: return Ty.array(ty(((ArrayType) type).getComponentType(), env));
            case DECLARED: return declared((DeclaredType) type, env);
            case TYPEVAR: return variable((TypeVariable) type, env);
            case WILDCARD: return wildcard((WildcardType) type, env);
            case INTERSECTION: return intersection((IntersectionType) type, env);
            case LONG: case FLOAT: case DOUBLE: return refused(type);
            default: return Ty.OBJECT;
        }
    }

    /** The type of a parameter; of the library's, a load of a table, which is always three quarters, is a number. */
    Ty parameter(VariableElement one, Map<Element, Ty> env) {
        return isLoad(one) ? Ty.INT : env.containsKey(one) ? env.get(one) : ty(one.asType(), env);
    }

    boolean isLoad(VariableElement one) {
        return one.asType().getKind() == TypeKind.FLOAT
            && sources.isLibrary(sources.unitOf.get(one.getEnclosingElement().getEnclosingElement()));
    }

    /** The type of a field or a local: a container may have a class of its own. */
    Ty tyOf(Element variable, Map<Element, Ty> env) {
        if (env.containsKey(variable)) {
            return env.get(variable);
        }
        Ty own = apart.of(variable);
        return own == null ? ty(variable.asType(), env) : copyOf((DeclaredType) variable.asType(), env, own).ty;
    }

    /** Whether it is a container, or a part of one, with a class of its own. */
    boolean isApart(Ty type) {
        return type.is(Ty.Kind.CLASS) && type.copy.env.containsKey(tag);
    }

    /** Numbers that are not brought in; int in their place, so that nothing more is told of them. */
    private Ty refused(TypeMirror type) {
        if (place != null) {
            obstacles.add(place, type.toString(), numberAdvice(type));
        }
        return Ty.INT;
    }

    static String numberAdvice(TypeMirror type) {
        return type.getKind() == TypeKind.LONG ? "long is not brought in; write int where the values fit"
            : "there are no numbers with a fraction; write whole ones, such as cents";
    }

    private Ty intersection(IntersectionType type, Map<Element, Ty> env) {
        for (TypeMirror bound : type.getBounds()) {
            Ty found = ty(bound, env);
            if (!found.is(Ty.Kind.OBJECT)) {
                return found;
            }
        }
        return Ty.OBJECT;
    }

    private Ty variable(TypeVariable type, Map<Element, Ty> env) {
        Ty known = env.get(type.asElement());
        if (known != null) {
            return known;
        }
        if (type.getLowerBound().getKind() != TypeKind.NULL) {
            return ty(type.getLowerBound(), env);
        }
        return bound(type.asElement(), type.getUpperBound(), env);
    }

    /** The bound of a variable of which nothing is known; it stands for itself as Object inside. */
    private Ty bound(Element variable, TypeMirror bound, Map<Element, Ty> env) {
        Map<Element, Ty> inner = new HashMap<>(env);
        inner.put(variable, Ty.OBJECT);
        return ty(bound, inner);
    }

    private Ty wildcard(WildcardType type, Map<Element, Ty> env) {
        return type.getExtendsBound() != null ? ty(type.getExtendsBound(), env)
            : type.getSuperBound() != null ? ty(type.getSuperBound(), env) : Ty.OBJECT;
    }

    private Ty declared(DeclaredType type, Map<Element, Ty> env) {
        TypeElement element = (TypeElement) type.asElement();
        String name = element.getQualifiedName().toString();
        if (name.equals("java.lang.String")) {
            return Ty.STRING;
        }
        if (name.equals("java.lang.Object")) {
            return Ty.OBJECT;
        }
        return copyOf(type, env).ty;
    }

    // ---- classes

    /** The variables that stand for types where a class is declared. */
    List<TypeParameterElement> variablesOf(TypeElement element) {
        List<TypeParameterElement> all = new ArrayList<>(element.getTypeParameters());
        Element inner = element;
        while (!inner.getModifiers().contains(Modifier.STATIC) && !inner.getKind().isInterface()
            && inner.getKind() != ElementKind.ENUM && inner.getKind() != ElementKind.RECORD) {
            inner = inner.getEnclosingElement();
            if (inner == null || inner.getKind() == ElementKind.PACKAGE) {
                break;
            }
            if (inner instanceof Parameterizable holder) {
                all.addAll(holder.getTypeParameters());
            }
        }
        return all;
    }

    Copy copyOf(DeclaredType type, Map<Element, Ty> env) {
        return copyOf(type, env, env.get(tag));
    }

    Copy copyOf(DeclaredType type, Map<Element, Ty> env, Ty mark) {
        TypeElement element = (TypeElement) type.asElement();
        Map<Element, Ty> given = new LinkedHashMap<>();
        for (DeclaredType at = type; at != null; at = at.getEnclosingType() instanceof DeclaredType up ? up : null) {
            List<? extends TypeParameterElement> own = ((TypeElement) at.asElement()).getTypeParameters();
            for (int k = 0; k < own.size() && k < at.getTypeArguments().size(); k++) {
                TypeMirror argument = at.getTypeArguments().get(k);
                boolean open = argument.getKind() == TypeKind.WILDCARD
                    && ((WildcardType) argument).getExtendsBound() == null
                    && ((WildcardType) argument).getSuperBound() == null;
                if (!open) {
                    given.put(own.get(k), ty(argument, env));
                }
            }
        }
        Map<Element, Ty> closed = new LinkedHashMap<>();
        for (TypeParameterElement one : variablesOf(element)) {
            Ty found = given.containsKey(one) ? given.get(one) : env.get(one);
            closed.put(one, found != null ? found : bound(one, ((TypeVariable) one.asType()).getUpperBound(), closed));
        }
        if (mark != null && Apart.isContainer(element) && sources.isLibrary(sources.unitOf.get(element))) {
            closed.put(tag, mark);
        }
        return copy(element, closed);
    }

    /** The copy in which the static members of a class stand. */
    Copy staticCopy(TypeElement element) {
        return copy(element, new LinkedHashMap<>());
    }

    Copy copy(TypeElement element, Map<Element, Ty> env) {
        List<Object> key = new ArrayList<>(List.of(element));
        key.addAll(env.values());
        Copy found = known.get(key);
        if (found != null) {
            return found;
        }
        Tree tree = sources.treeOf.get(element);
        boolean library = tree == null || sources.isLibrary(sources.unitOf.get(element));
        Copy made = new Copy(copies.size(), element, tree, sources.unitOf.get(element), env, library);
        add(key, made, nameFor(element, env, made));
        boolean raw = env.isEmpty() && !variablesOf(element).isEmpty();
        if (raw) {
            return made;
        }
        setSupertypes(made);
        if (tree != null) {
            program.prepare(made, tree, program.around(element, env));
        } else if (!element.getKind().isInterface() && place != null) {
            obstacles.add(place, "library", element.getQualifiedName() + " is not in the library");
        }
        return made;
    }

    /** Whether a type names a generic class, and says nothing of the types for its variables. */
    boolean isOpen(TypeMirror type, Map<Element, Ty> env) {
        if (!(type instanceof DeclaredType declared)) {
            return false;
        }
        TypeElement element = (TypeElement) declared.asElement();
        return !element.getTypeParameters().isEmpty()
            && element.getTypeParameters().stream().noneMatch(env::containsKey)
            && declared.getTypeArguments().stream().allMatch(one -> one instanceof WildcardType wild
                && wild.getExtendsBound() == null && wild.getSuperBound() == null);
    }

    /** The copy of a generic class that objects seen as another copy may be, or null where that does not say it. */
    Copy below(TypeElement element, Copy seen) {
        DeclaredType up = seen.element == null ? null : above((DeclaredType) element.asType(), seen.element);
        if (up == null) {
            return null;
        }
        Map<Element, Ty> env = new LinkedHashMap<>();
        List<? extends TypeParameterElement> own = seen.element.getTypeParameters();
        for (int k = 0; k < own.size() && k < up.getTypeArguments().size(); k++) {
            if (up.getTypeArguments().get(k) instanceof TypeVariable variable && seen.env.containsKey(own.get(k))) {
                env.put(variable.asElement(), seen.env.get(own.get(k)));
            }
        }
        Map<Element, Ty> sorted = new LinkedHashMap<>();
        element.getTypeParameters().forEach(one -> sorted.put(one, env.get(one)));
        return sorted.containsValue(null) ? null : copy(element, sorted);
    }

    private DeclaredType above(DeclaredType type, TypeElement asked) {
        if (type.asElement().equals(asked)) {
            return type;
        }
        for (TypeMirror up : sources.types.directSupertypes(type)) {
            DeclaredType found = above((DeclaredType) up, asked);
            if (found != null) {
                return found;
            }
        }
        return null;
    }

    /** A class of our own. */
    Copy made(String name) {
        Copy made = new Copy(copies.size(), null, null, null, Map.of(), true);
        add(List.of(name), made, name);
        return made;
    }

    private void add(List<Object> key, Copy made, String name) {
        known.put(key, made);
        made.name = unique(name);
        copies.add(made);
        if (copies.size() > MOST && !toldMany) {
            toldMany = true;
            obstacles.add(new Place("-", 1, 1), "generics", "more than " + MOST
                + " classes for the types that are given to variables");
        }
        if (copies.size() > 2 * MOST) {
            throw new TooMany();
        }
    }

    static final class TooMany extends RuntimeException {
        private static final long serialVersionUID = 1;
    }

    /** The class of a lambda or a method reference. */
    Copy lambda(Tree tree, Copy around, Map<Element, Ty> env, Copy function) {
        List<Object> key = new ArrayList<>(List.of(tree));
        key.addAll(env.values());
        key.add(function.ty);
        key.add(around.ty);
        Copy found = known.get(key);
        if (found == null) {
            found = new Copy(copies.size(), null, tree, around.unit, env, around.isLibrary);
            add(key, found, function.element.getSimpleName() + "1");
            found.interfaces.add(function);
        }
        return found;
    }

    private String nameFor(TypeElement element, Map<Element, Ty> env, Copy made) {
        String simple = element.getSimpleName().toString();
        if (element.getNestingKind() == NestingKind.ANONYMOUS) {
            TypeMirror above = element.getInterfaces().isEmpty() ? element.getSuperclass()
                : element.getInterfaces().get(0);
            return ((DeclaredType) above).asElement().getSimpleName() + "1";
        }
        if (element.toString().equals("java.lang.String")) {
            return "Strings";
        }
        StringBuilder name = new StringBuilder(simple);
        env.values().forEach(one -> name.append('_').append(one.key()));
        Element holder = element.getEnclosingElement();
        boolean clashes = classNames.contains(name.toString()) && holder instanceof TypeElement;
        return clashes ? holder.getSimpleName() + name.toString() : name.toString();
    }

    /** A name that no class and no variable has. */
    String unique(String name) {
        String base = name.replaceAll("[0-9]+$", "");
        String tried = name;
        for (int k = 2; !classNames.add(tried); k++) {
            tried = (base.isEmpty() ? name : base) + k;
        }
        return tried;
    }

    private void setSupertypes(Copy made) {
        TypeMirror above = made.element.getSuperclass();
        if (above.getKind() == TypeKind.DECLARED && made.tree != null) {
            String name = above.toString();
            boolean plain = name.equals("java.lang.Object") || name.startsWith("java.lang.Record");
            made.superCopy = plain || made.isInterface() ? null : copyOf((DeclaredType) above, made.env);
        }
        if (made.tree != null) {
            for (TypeMirror one : made.element.getInterfaces()) {
                if (sources.treeOf.get(((DeclaredType) one).asElement()) != null) {
                    made.interfaces.add(copyOf((DeclaredType) one, made.env));
                }
            }
        }
    }

    // ---- members

    /** What a class is found to have for a method that stands above it: the nearest body or head. */
    record Found(Copy copy, ExecutableElement method) {
    }

    /** The method that objects of a class run, or the head, for one declared at or above it; null where it has none. */
    Found find(Copy from, ExecutableElement asked) {
        List<Object> key = List.of(from, asked);
        if (!answers.containsKey(key)) {
            answers.put(key, search(from, asked));
        }
        return answers.get(key);
    }

    private Found search(Copy from, ExecutableElement asked) {
        for (Copy at = from; at != null; at = at.superCopy) {
            Found own = declared(at, asked);
            if (own != null) {
                return own;
            }
        }
        for (Copy at = from; at != null; at = at.superCopy) {
            Found found = null;
            for (Copy one : at.interfaces) {
                Found here = find(one, asked);
                found = found == null || here != null && isBody(here) && !isBody(found)
                    ? (here != null ? here : found) : found;
            }
            if (found != null) {
                return found;
            }
        }
        return null;
    }

    static boolean isBody(Found found) {
        return !found.method.getModifiers().contains(Modifier.ABSTRACT);
    }

    private Found declared(Copy at, ExecutableElement asked) {
        if (at.element == null) {
            return null;
        }
        for (Element member : at.element.getEnclosedElements()) {
            if (member instanceof ExecutableElement method && method.getSimpleName().equals(asked.getSimpleName())
                && member.getKind() == ElementKind.METHOD && methodNames.same(method, asked)) {
                return new Found(at, method);
            }
        }
        return null;
    }

    /** The one abstract method of a functional interface, with the interface that declares it. */
    Found functional(Copy function) {
        for (Element member : function.element.getEnclosedElements()) {
            if (member instanceof ExecutableElement method && member.getModifiers().contains(Modifier.ABSTRACT)
                && !ofObject(method)) {
                return new Found(function, method);
            }
        }
        for (Copy up : function.interfaces) {
            Found found = functional(up);
            if (found != null) {
                return found;
            }
        }
        return null;
    }

    private boolean ofObject(ExecutableElement method) {
        String text = method.toString();
        return text.equals("equals(java.lang.Object)") || text.equals("hashCode()") || text.equals("toString()");
    }

    /** Whether objects of a class know the object around them. */
    boolean isInner(TypeElement element) {
        Element holder = element.getEnclosingElement();
        boolean plain = element.getModifiers().contains(Modifier.STATIC) || element.getKind() != ElementKind.CLASS;
        if (plain || element.getNestingKind() == NestingKind.TOP_LEVEL) {
            return false;
        }
        if (element.getNestingKind() == NestingKind.MEMBER) {
            return holder.getKind() == ElementKind.CLASS || holder.getKind() == ElementKind.ENUM
                || holder.getKind() == ElementKind.RECORD;
        }
        return true;
    }

    ClassTree classTree(Copy copy) {
        return (ClassTree) copy.tree;
    }

    static boolean isLocal(Element element) {
        return element instanceof VariableElement && (element.getKind() == ElementKind.LOCAL_VARIABLE
            || element.getKind() == ElementKind.PARAMETER
            || element.getKind() == ElementKind.EXCEPTION_PARAMETER || element.getKind() == ElementKind.BINDING_VARIABLE
            || element.getKind() == ElementKind.RESOURCE_VARIABLE);
    }
}
