package rules

import "github.com/moby/buildkit/solver/pb"

// needs returns the actions that BuildKit does before an action: also that of the second input, whatever its kind.
func needs(action *pb.FileAction, count int) []int {
	var found []int
	for _, index := range []pb.InputIndex{action.Input, action.SecondaryInput} {
		if before := int(index) - count; before >= 0 {
			found = append(found, before)
		}
	}
	return found
}

// needed returns the actions that are done, in order. Rule UnusedAction: those that no output needs are not.
func needed(actions []*pb.FileAction, count int, like Rules) []int {
	found := map[int]bool{}
	var todo, order []int
	for number, action := range actions {
		if action.Output != nothing || !like.Has(UnusedAction) {
			todo = append(todo, number)
		}
	}
	for len(todo) > 0 {
		number := todo[len(todo)-1]
		todo = todo[:len(todo)-1]
		if number < len(actions) && !found[number] {
			found[number] = true
			if like.Has(UnusedAction) {
				todo = append(todo, needs(actions[number], count)...)
			}
		}
	}
	for number := range actions {
		if found[number] {
			order = append(order, number)
		}
	}
	return order
}

// checkSecondInputs fails by rule SecondInput: the second input of an action that is no copy must exist too, and not depend
// on the action.
func checkSecondInputs(actions []*pb.FileAction, count int) error {
	for number, action := range actions {
		if index := int(action.SecondaryInput); index < nothing || index >= count+len(actions) {
			return &ActionFails{number, fails("the second input does not exist")}
		}
	}
	loops := onLoops(actions, count)
	for _, number := range needed(actions, count, All) {
		if loops[number] {
			return &ActionFails{number, fails("the second input depends on the action")}
		}
	}
	return nil
}

// onLoops returns the actions that depend on themselves: those that are not alone among the actions that need each other. (This
// is Tarjan's search for strong components.)
func onLoops(actions []*pb.FileAction, count int) map[int]bool {
	found, place, low := map[int]bool{}, map[int]int{}, map[int]int{}
	var open []int
	isOpen := map[int]bool{}
	var visit func(int)
	visit = func(number int) {
		place[number] = len(place)
		low[number] = place[number]
		open, isOpen[number] = append(open, number), true
		for _, before := range needs(actions[number], count) {
			if _, seen := place[before]; !seen {
				visit(before)
			}
			if isOpen[before] {
				low[number] = min(low[number], low[before])
			}
			found[number] = found[number] || before == number
		}
		if low[number] != place[number] {
			return
		}
		for last, alone := -1, true; last != number; alone = false {
			last, open = open[len(open)-1], open[:len(open)-1]
			isOpen[last] = false
			found[last] = found[last] || last != number || !alone
		}
	}
	for number := range actions {
		if _, seen := place[number]; !seen {
			visit(number)
		}
	}
	return found
}
