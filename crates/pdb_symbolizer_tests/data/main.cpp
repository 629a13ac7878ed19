	line 1
	line 2

	line 4
	line 5

	line 7
	line 8

	line 10
	line 11

	line 13
	line 14

	line 16
	line 17

	line 19
	line 20

	line 22
	line 23

	line 25
	line 26

	line 28
	line 29

	line 31
	line 32

	line 34
	line 35

