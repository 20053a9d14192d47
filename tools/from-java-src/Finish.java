import java.util.ArrayList;
import java.util.LinkedHashMap;
import java.util.List;
import java.util.Map;

/** The last work on a body: jumps over more than one loop, what is never reached, and the return at the end. */
final class Finish {
    private record Far(St.Loop loop, boolean goesOn) {
    }

    private final Body body;
    private final Map<Far, String> flags = new LinkedHashMap<>();

    private Finish(Body body) {
        this.body = body;
    }

    static List<St> finish(List<St> list, Ty result, Body body) {
        List<St> made = reached(new Finish(body).near(list, null, new LinkedHashMap<>()));
        if (!result.is(Ty.Kind.VOID) && completes(made)) {
            St last = new St.Return(result.initial());
            last.at = made.isEmpty() ? body.place : made.get(made.size() - 1).at;
            made.add(last);
        }
        if (!made.isEmpty() && made.get(made.size() - 1) instanceof St.Return back && back.value == null) {
            made.remove(made.size() - 1);
        }
        return made;
    }

    // ---- jumps

    /** The list with jumps to the innermost loop alone; those that go farther are put into `far`. */
    private List<St> near(List<St> list, St.Loop current, Map<Far, String> far) {
        List<St> made = new ArrayList<>();
        for (St one : list) {
            if (one instanceof St.If choice) {
                choice.then = near(choice.then, current, far);
                choice.other = near(choice.other, current, far);
                made.add(one);
            } else if (one instanceof St.Block block) {
                block.body = near(block.body, current, far);
                made.add(one);
            } else if (one instanceof St.Jump jump && jump.loop != current) {
                Far to = new Far(jump.loop, jump.goesOn);
                String flag = flags.computeIfAbsent(to, key -> body.fresh("leaves"));
                far.put(to, flag);
                made.add(at(new St.Set_(flag, "true", flag), one));
                made.add(at(new St.Jump(current, false), one));
            } else if (one instanceof St.Loop loop) {
                loop(loop, current, far, made);
            } else {
                made.add(one);
            }
        }
        return made;
    }

    private static St at(St made, St from) {
        made.at = from.at;
        return made;
    }

    private void loop(St.Loop loop, St.Loop current, Map<Far, String> far, List<St> made) {
        Map<Far, String> leaving = new LinkedHashMap<>();
        loop.body = near(loop.body, loop, leaving);
        leaving.forEach((to, flag) -> {
            if (to.loop == current) {
                made.add(at(new St.Let("boolean", flag, "false"), loop));
            }
        });
        made.add(loop);
        leaving.forEach((to, flag) -> {
            boolean here = to.loop == current;
            List<St> then = new ArrayList<>(List.of(at(new St.Jump(current, here && to.goesOn), loop)));
            made.add(at(new St.If(Ex.local(flag, Ty.BOOLEAN), then, new ArrayList<>()), loop));
            if (!here) {
                far.put(to, flag);
            }
        });
    }

    // ---- what is reached

    static List<St> reached(List<St> list) {
        List<St> made = new ArrayList<>();
        for (St one : list) {
            if (one instanceof St.If choice) {
                choice.then = reached(choice.then);
                choice.other = reached(choice.other);
            } else if (one instanceof St.Block block) {
                block.body = reached(block.body);
            } else if (one instanceof St.Loop loop) {
                loop.body = reached(loop.body);
                List<St> turn = loop.body;
                if (!turn.isEmpty() && turn.get(turn.size() - 1) instanceof St.Jump jump && jump.goesOn
                    && jump.loop == loop) {
                    turn.remove(turn.size() - 1);
                }
            }
            made.add(one);
            if (!completes(one)) {
                break;
            }
        }
        return made;
    }

    static boolean completes(List<St> list) {
        return list.stream().allMatch(Finish::completes);
    }

    /** Whether what follows a statement is reached, by Java's rules. */
    static boolean completes(St one) {
        if (one instanceof St.Return || one instanceof St.Jump) {
            return false;
        }
        if (one instanceof St.If choice) {
            return choice.other.isEmpty() || completes(choice.then) || completes(choice.other);
        }
        if (one instanceof St.Block block) {
            return completes(block.body);
        }
        return !(one instanceof St.Loop loop) || !loop.isEndless() || leaves(reached(new ArrayList<>(loop.body)), loop);
    }

    /** Whether a list has a break that leaves a loop. */
    static boolean leaves(List<St> list, St.Loop loop) {
        for (St one : list) {
            boolean found = one instanceof St.Jump jump && jump.loop == loop && !jump.goesOn
                || one instanceof St.If choice && (leaves(choice.then, loop) || leaves(choice.other, loop))
                || one instanceof St.Block block && leaves(block.body, loop)
                || one instanceof St.Loop inner && leaves(inner.body, loop);
            if (found) {
                return true;
            }
        }
        return false;
    }

    /** Takes breaks of a loop away where they end a list, since what follows is reached without them. */
    static void trim(List<St> list, St.Loop loop) {
        if (list.isEmpty()) {
            return;
        }
        St last = list.get(list.size() - 1);
        if (last instanceof St.Jump jump && jump.loop == loop && !jump.goesOn) {
            list.remove(list.size() - 1);
        } else if (last instanceof St.If choice) {
            choice.then = new ArrayList<>(choice.then);
            choice.other = new ArrayList<>(choice.other);
            trim(choice.then, loop);
            trim(choice.other, loop);
        } else if (last instanceof St.Block block) {
            block.body = new ArrayList<>(block.body);
            trim(block.body, loop);
        }
    }
}
