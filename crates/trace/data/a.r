main(){while(1)cannon(0,0);}
