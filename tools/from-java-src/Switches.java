import com.sun.source.tree.BlockTree;
import com.sun.source.tree.CaseTree;
import com.sun.source.tree.ExpressionTree;
import com.sun.source.tree.IdentifierTree;
import com.sun.source.tree.MemberSelectTree;
import com.sun.source.tree.StatementTree;
import com.sun.source.tree.SwitchExpressionTree;
import com.sun.source.tree.SwitchTree;
import com.sun.source.tree.Tree;
import com.sun.source.tree.VariableTree;
import com.sun.source.tree.YieldTree;
import com.sun.source.util.TreeScanner;
import java.util.ArrayDeque;
import java.util.ArrayList;
import java.util.Deque;
import java.util.HashSet;
import java.util.List;
import java.util.Set;
import javax.lang.model.element.Element;
import javax.lang.model.element.ElementKind;
import javax.lang.model.element.TypeElement;
import javax.lang.model.element.VariableElement;

/** Switches as ifs; where one group runs into the next, by a number that says where to begin. */
final class Switches {
    private static final class Group {
        final List<ExpressionTree> labels = new ArrayList<>();
        boolean isDefault;
        List<St> statements;
        CaseTree tree;
    }

    private record Yield(String name, Ty type, Body.Target target) {
    }

    private final Body body;
    private final Deque<Yield> yields = new ArrayDeque<>();

    Switches(Body body) {
        this.body = body;
    }

    void statement(SwitchTree tree) {
        Body.Target target = target();
        lower(tree.getExpression(), tree.getCases(), target, null, tree);
    }

    private Body.Target target() {
        Body.Target target = new Body.Target();
        target.loop = new St.Loop();
        target.loop.at = body.place;
        return target;
    }

    Ex expression(SwitchExpressionTree tree, Ty wanted) {
        Ty own = body.tyOf(tree);
        Ty type = own.isReference() && wanted != null && wanted.isReference() ? wanted : own;
        String name = body.fresh(type);
        body.emit(new St.Let(type.text(), name, type.initial()));
        Body.Target target = target();
        target.breaks = false;
        Yield yield = new Yield(name, type, target);
        yields.push(yield);
        lower(tree.getExpression(), tree.getCases(), target, yield, tree);
        yields.pop();
        return Ex.local(name, type);
    }

    void yield_(YieldTree tree) {
        Yield at = yields.peek();
        body.setLocal(at.name, body.exTo(tree.getValue(), at.type));
        body.exceptions.leaveTo(at.target, () -> body.emit(new St.Jump(at.target.loop, false)));
    }

    private void lower(ExpressionTree selector, List<? extends CaseTree> cases, Body.Target target, Yield yield,
        Tree tree) {
        Ex value = body.ex(selector);
        boolean isPlain = value.type.is(Ty.Kind.STRING) || value.type.is(Ty.Kind.CLASS)
            && !body.conversions.isBox(value.type);
        Ex kept = body.settle(isPlain ? value : body.conversions.primitive(value, selector));
        shareLocals(cases);
        List<Group> groups = new ArrayList<>();
        body.targets.push(target);
        body.open();
        Group open = null;
        for (CaseTree one : cases) {
            Group group = open != null ? open : new Group();
            open = null;
            group.tree = one;
            group.labels.addAll(one.getExpressions());
            group.isDefault |= one.getExpressions().isEmpty();
            if (one.getCaseKind() == CaseTree.CaseKind.STATEMENT && one.getStatements().isEmpty()
                && one != cases.get(cases.size() - 1)) {
                open = group;
                continue;
            }
            group.statements = body.within(() -> group(one, target, yield));
            groups.add(group);
        }
        body.close();
        body.targets.pop();
        write(groups, kept, target, tree);
    }

    private void group(CaseTree one, Body.Target target, Yield yield) {
        if (one.getCaseKind() == CaseTree.CaseKind.STATEMENT) {
            one.getStatements().forEach(body::statement);
            return;
        }
        Tree part = one.getBody();
        if (part instanceof ExpressionTree value && yield != null) {
            body.statements.hoisting(() -> body.setLocal(yield.name, body.exTo(value, yield.type)));
        } else if (part instanceof ExpressionTree value) {
            body.statements.hoisting(() -> body.statements.expression(value));
        } else if (part instanceof BlockTree block) {
            body.open();
            block.getStatements().forEach(body::statement);
            body.close();
        } else {
            body.statement((StatementTree) part);
        }
        body.emit(new St.Jump(target.loop, false));
    }

    /** Declares before the switch what one group declares and another uses. */
    private void shareLocals(List<? extends CaseTree> cases) {
        for (CaseTree one : cases) {
            for (StatementTree statement : one.getStatements() == null ? List.<StatementTree>of()
                : one.getStatements()) {
                if (statement instanceof VariableTree variable) {
                    Element element = body.elementOf(variable);
                    boolean elsewhere = cases.stream().anyMatch(other -> other != one && uses(other, element));
                    if (elsewhere) {
                        Ty type = body.ty(element.asType());
                        body.shared.add(element);
                        body.emit(new St.Let(type.text(), body.declareWide(element, type), type.initial()));
                    }
                }
            }
        }
    }

    private boolean uses(CaseTree tree, Element element) {
        Set<Element> found = new HashSet<>();
        new TreeScanner<Void, Void>() {
            @Override
            public Void visitIdentifier(IdentifierTree id, Void nothing) {
                found.add(body.elementOf(id));
                return null;
            }
        }.scan(tree, null);
        return found.contains(element);
    }

    // ---- tests

    private Ex test(Ex value, List<ExpressionTree> labels) {
        Ex all = null;
        for (ExpressionTree label : labels) {
            Ex one = test(value, label);
            all = all == null ? one : Ex.binary(all, "||", Ex.OR, one, Ty.BOOLEAN);
        }
        return all;
    }

    private Ex test(Ex value, ExpressionTree label) {
        if (value.type.is(Ty.Kind.STRING)) {
            return Ex.active(value.at(Ex.POST) + ".equals(" + body.ex(label).text + ")", Ex.POST, Ty.BOOLEAN);
        }
        if (value.type.is(Ty.Kind.CLASS)) {
            String name = label instanceof MemberSelectTree select ? select.getIdentifier().toString()
                : label.toString();
            VariableElement constant = constant(value.type.copy.element, name);
            String method = body.program.needNamed(value.type.copy.root(), "is");
            return Ex.active(value.at(Ex.POST) + "." + method + "("
                + body.expressions.field(null, constant, label).text + ")", Ex.POST, Ty.BOOLEAN);
        }
        return Ex.binary(value, "==", Ex.EQUAL, body.conversions.convert(body.ex(label), value.type, label),
            Ty.BOOLEAN);
    }

    private static VariableElement constant(TypeElement holder, String name) {
        return (VariableElement) holder.getEnclosedElements().stream()
            .filter(one -> one.getKind() == ElementKind.ENUM_CONSTANT
                && one.getSimpleName().contentEquals(name)).findFirst().orElseThrow();
    }

    // ---- writing

    private void write(List<Group> groups, Ex value, Body.Target target, Tree tree) {
        boolean falls = false;
        for (int k = 0; k + 1 < groups.size(); k++) {
            falls |= Finish.completes(groups.get(k).statements);
        }
        if (falls) {
            writeFalling(groups, value, target);
            return;
        }
        groups.forEach(group -> Finish.trim(group.statements, target.loop));
        Group other = groups.stream().filter(group -> group.isDefault).findFirst().orElse(null);
        List<St> chain = other == null ? new ArrayList<>() : other.statements;
        for (int k = groups.size() - 1; k >= 0; k--) {
            Group group = groups.get(k);
            if (!group.isDefault) {
                St.If choice = new St.If(test(value, group.labels), group.statements, chain);
                choice.at = body.placeOf(group.tree);
                chain = new ArrayList<>(List.of(choice));
            }
        }
        wrap(chain, target);
    }

    private void wrap(List<St> list, Body.Target target) {
        if (!Finish.leaves(list, target.loop)) {
            boolean bare = list.stream().anyMatch(one -> one instanceof St.Let);
            if (bare) {
                body.emit(new St.Block(list));
            } else {
                body.out.addAll(list);
            }
            return;
        }
        target.loop.body = list;
        St last = new St.Jump(target.loop, false);
        last.at = body.place;
        list.add(last);
        body.emit(target.loop);
    }

    private void writeFalling(List<Group> groups, Ex value, Body.Target target) {
        String from = body.fresh("group");
        int none = groups.size();
        for (int k = 0; k < groups.size(); k++) {
            none = groups.get(k).isDefault ? k : none;
        }
        body.emit(new St.Let("int", from, "" + none));
        List<St> chain = new ArrayList<>();
        for (int k = groups.size() - 1; k >= 0; k--) {
            if (!groups.get(k).labels.isEmpty() && !groups.get(k).isDefault) {
                String number = "" + k;
                List<St> then = body.within(() -> body.setLocal(from, Ex.constant(number, Ty.INT)));
                St.If choice = new St.If(test(value, groups.get(k).labels), then, chain);
                choice.at = body.place;
                chain = new ArrayList<>(List.of(choice));
            }
        }
        body.out.addAll(chain);
        List<St> all = new ArrayList<>();
        for (int k = 0; k < groups.size(); k++) {
            Ex here = Ex.binary(Ex.local(from, Ty.INT), "<=", Ex.COMPARE, Ex.constant("" + k, Ty.INT), Ty.BOOLEAN);
            St.If choice = new St.If(here, groups.get(k).statements, new ArrayList<>());
            choice.at = body.placeOf(groups.get(k).tree);
            all.add(choice);
        }
        wrap(all, target);
    }
}
